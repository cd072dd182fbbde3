from shadowtools.door import leads_to

leads_to("gate.exam_client", __name__)
