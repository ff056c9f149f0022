"""What programs print, and inputs for them."""
import os
import subprocess
import tty

from repository import built


def printed(name, data=b""):
    """What a program prints for an input."""
    return subprocess.run([built(name)], input=data, capture_output=True, check=True).stdout


def run_script(data):
    return printed("lockers_main", data)


def failing(data):
    """A descriptor from which the data is read, and then a read fails: a terminal's end whose other end is closed."""
    near, far = os.openpty()
    tty.setraw(far)
    os.write(far, data)
    os.close(far)
    return os.fdopen(near, "rb")
