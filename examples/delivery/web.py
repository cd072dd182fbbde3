"""What both applications share: the headers of each page, the page of a fault, and the server that they run under."""
import logging
import sqlite3
import sys
import threading
import time

import waitress
from flask import render_template, request
from werkzeug.exceptions import HTTPException, ServiceUnavailable

from readers import Refused
from settings import BadInput, read_settings

HEADERS = {
    "Content-Security-Policy": "default-src 'none'; style-src 'self'; script-src 'self'; worker-src 'self'; connect-src 'self'; "
                               "img-src 'self' data:; form-action 'self'; base-uri 'none'; frame-ancestors 'none'",
    "X-Frame-Options": "DENY",
    "X-Content-Type-Options": "nosniff",
    "Referrer-Policy": "same-origin",
    "Cross-Origin-Opener-Policy": "same-origin",
}


# The heading and the text of a fault's page, by its status, as names of words.
FAULTS = {
    400: ("fault_old", "fault_old_text"),
    403: ("fault_not_yours", "fault_no_change"),
    404: ("fault_page", "fault_link"),
    405: ("fault_use", "fault_link"),
    413: ("fault_long", "fault_long_text"),
    503: ("fault_store", "fault_store_text"),
}


def secured(app, home, say):
    """The application with these headers, and with a page for each fault that leads to `home`, in these words."""
    def fault_page(fault):
        name, text = FAULTS.get(fault.code, ("fault_other", "fault_other_text"))
        return render_template("fault.html", name=say(name), text=say(text), home=home), fault.code

    def store_fault(fault):
        print(f"delivery: {fault}", file=sys.stderr, flush=True)
        return fault_page(ServiceUnavailable())

    def with_headers(response):
        response.headers.update(HEADERS)
        if request.endpoint == "worker":
            response.headers["Cache-Control"] = "no-cache"
        elif request.endpoint != "static" or response.status_code >= 400:
            response.headers["Cache-Control"] = "no-store"
        return response

    app.config["SEND_FILE_MAX_AGE_DEFAULT"] = 3600  # of the style, which alone is kept in a cache
    app.register_error_handler(HTTPException, fault_page)
    app.register_error_handler(sqlite3.Error, store_fault)
    app.after_request(with_headers)
    return app


def server_of(app, settings, address):
    """The server of an application, whose port is open from now on."""
    host, _, port = address.rpartition(":")
    trusted = {"trusted_proxy": settings.proxy, "trusted_proxy_headers": {"x-forwarded-for", "x-forwarded-proto"}}
    try:
        return waitress.create_server(
            app, host=host.strip("[]"), port=int(port), threads=16, ident=None, max_request_body_size=app.config.get("LARGEST_BODY", 8192),
            channel_timeout=20, connection_limit=900, asyncore_use_poll=True, clear_untrusted_proxy_headers=True,
            **(trusted if settings.proxy else {}))
    except (OSError, ValueError) as error:
        raise BadInput(f"{address} can't be listened at: {error}") from error


def repeat(name, act, seconds):
    """Does something each so many seconds, for as long as the process lives. A fault is logged, and the next time comes."""
    while True:
        try:
            act()
        except Exception:
            logging.exception("%s", name)
        time.sleep(seconds)


def run(make_app, address, words, read=read_settings):
    """Serves the application of the settings that the words name, at the address of that name. The status is 1 or 2 where a new
    start would meet the same fault, and 3 where it need not."""
    if len(words) != 1:
        print("usage: SETTINGS", file=sys.stderr)
        return 2
    try:
        settings = read(words[0])
        app = make_app(settings)
        server = server_of(app, settings, getattr(settings, address))
    except (BadInput, Refused, OSError, sqlite3.Error) as error:
        print(error, file=sys.stderr)
        return 1
    logging.basicConfig()
    for name, (act, seconds) in app.extensions.get("background", {}).items():
        threading.Thread(target=repeat, args=(name, act, seconds), daemon=True).start()
    try:
        server.run()
    except Exception:  # whoever keeps the application up starts it again
        logging.exception("the application ends")
        return 3
    return 0
