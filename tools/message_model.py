from shadowtools.door import leads_to

leads_to("checkers.message_model", __name__)
