from shadowtools.door import leads_to

leads_to("formats.examination", __name__)
