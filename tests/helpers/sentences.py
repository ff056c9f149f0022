"""The sentences of a document: those of its paragraphs and of the items of its lists. Blocks of code, tables and headings have none."""
import re

CODE = re.compile(r"^```.*?^```$", re.M | re.S)
COMMENT = re.compile(r"<!--.*?-->", re.S)
ITEM = re.compile(r"^\s*(?:[-*]|\d+\.)\s+")
# A sentence ends at one of these signs, perhaps closed by a quote or a bracket, with a space and no small letter behind it.
END = re.compile(r"(?<=[.!?])[\"')*]*\s+(?=[^a-z\s])")


def paragraphs(text):
    """The paragraphs and the items of lists, each on one line."""
    text = COMMENT.sub("", CODE.sub("\n\n", text))
    found = [""]
    for line in text.splitlines():
        if not line.strip() or line.startswith(("|", "#", "    ")) or line.startswith("!["):
            found.append("")
        elif ITEM.match(line):
            found.append(ITEM.sub("", line))
        else:
            found[-1] += " " + line.strip()
    return [one.strip() for one in found if one.strip()]


def plain(text):
    """A text with one word for each code span, link and bold part's mark."""
    text = re.sub(r"`[^`]+`", "CODE", text)
    return re.sub(r"!?\[([^\]]*)\]\([^)]*\)", r"\1", text).replace("**", "")


def words(sentence):
    return [word for word in sentence.split() if re.search(r"\w", word)]


def sentences(text):
    """Each sentence as the list of its words."""
    return [found for paragraph in paragraphs(text) for one in END.split(plain(paragraph)) if (found := words(one))]


def lengths(text):
    """The mean of the sentences' words, and the longest sentence with its words."""
    found = sentences(text)
    longest = max(found, key=len)
    return sum(map(len, found)) / len(found), len(longest), " ".join(longest)
