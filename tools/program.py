from shadowtools.door import leads_to

leads_to("places", __name__)
