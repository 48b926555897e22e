"""python3 -m oaut_dcom: the program oaut-dcom."""
import sys

from .main import main

if __name__ == "__main__":
    sys.exit(main())
