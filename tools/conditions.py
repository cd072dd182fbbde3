from shadowtools.door import leads_to

leads_to("agency.conditions", __name__)
