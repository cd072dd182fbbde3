from shadowtools.door import leads_to

leads_to("agency.drivers", __name__)
