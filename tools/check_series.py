#!/usr/bin/env python3
from shadowtools.door import leads_to

leads_to("checkers.check_series", __name__)
