"""Where the independent model stands, by whose rules the launcher reads scripts, audits and logs."""
import os
import sys

TOP = os.path.dirname(os.path.dirname(os.path.dirname(os.path.realpath(__file__))))

sys.dont_write_bytecode = True
sys.path.append(f"{TOP}/cases/model")
