from shadowtools.door import leads_to

leads_to("checkers.text_readers", __name__)
