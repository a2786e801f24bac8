"""`python3 -m livingstone` is the command `lv`."""

from .cli import main

if __name__ == "__main__":
    raise SystemExit(main())
