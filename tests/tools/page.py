"""`routed-tools page`: its server, and what a browser makes of it."""
from tools.page_browser import page_browser
from tools.page_server import page_server


def page(program, checks):
    page_server(program, checks)
    page_browser(program, checks)
