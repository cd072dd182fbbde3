from shadowtools.door import leads_to

leads_to("agency.bank_parameters", __name__)
