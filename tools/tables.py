from shadowtools.door import leads_to

leads_to("formats.tables", __name__)
