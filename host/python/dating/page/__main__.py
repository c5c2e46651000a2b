"""`python3 -m dating.page FILE`."""

from .main import run

if __name__ == "__main__":
    run()
