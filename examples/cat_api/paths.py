"""Makes the modules of the delivery application importable: the adapter shares its client of shadowd, its settings and its texts."""
import os
import sys

DELIVERY = os.path.join(os.path.dirname(os.path.abspath(__file__)), "..", "delivery")
if DELIVERY not in sys.path:
    sys.path.append(DELIVERY)
