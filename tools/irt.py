from shadowtools.door import leads_to

leads_to("agency.irt", __name__)
