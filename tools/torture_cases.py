from shadowtools.door import leads_to

leads_to("gate.torture_cases", __name__)
