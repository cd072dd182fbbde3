from shadowtools.door import leads_to

leads_to("agency.simulation", __name__)
