#!/usr/bin/env python3
from shadowtools.door import leads_to

leads_to("checkers.drill_texts", __name__)
