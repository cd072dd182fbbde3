#!/usr/bin/env python3
from shadowtools.door import leads_to

leads_to("gate.manual", __name__)
