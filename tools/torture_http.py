from shadowtools.door import leads_to

leads_to("gate.torture_http", __name__)
