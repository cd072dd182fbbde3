#!/usr/bin/env python3
from shadowtools.door import leads_to

leads_to("gate.system_calls", __name__)
