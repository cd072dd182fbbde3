"""What the application takes from the tools of this repository: readers of bank, plan, map and journal, and the estimate."""
import os
import sys

sys.path.append(os.path.join(os.path.dirname(os.path.abspath(__file__)), "..", "..", "tools"))
from shadowtools.agency.custody import read_documents  # noqa: E402,F401
from shadowtools.agency.scoring import mode, moments, posterior_sums  # noqa: E402,F401
from shadowtools.command import Refused  # noqa: E402,F401
from shadowtools.formats.examination import read_journal, sessions_of  # noqa: E402,F401
