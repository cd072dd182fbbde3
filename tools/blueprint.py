from shadowtools.door import leads_to

leads_to("agency.blueprint", __name__)
