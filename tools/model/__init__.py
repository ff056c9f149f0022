"""The script program of document 01, with Points 1, 2, 6, 7, 9 and 10 of document 02, written from the papers: the steps of a bank, the bank, and the
text. `tell` is given in words which condition or branch each line met; `made` makes the bank."""
from model import bank, steps, text
from model.bank import Bank
from model.steps import CAPACITY, HIGHEST, Column, Refused, refuse
from model.text import LIMIT, STEPS, line, run, script, table

# Its modules, each after those that it rests on.
PARTS = (steps, bank, text)
