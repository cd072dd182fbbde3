from shadowtools.door import leads_to

leads_to("checkers.reply_model", __name__)
