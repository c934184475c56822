#!/usr/bin/env python3
"""Sends a server what the usual clients of Eureka send by their sources, and checks that the answers are those that docs/CLIENTS.md has.

    tools/check_clients.py PROGRAM

PROGRAM is the built program (crates/eureka/out/eureka). None of the clients is run: the requests are written here as the clients write them.
"""
import http.client
import json
import re
import subprocess
import sys

IDENTITY = {"DiscoveryIdentity-Name": "DefaultClient", "DiscoveryIdentity-Version": "1.4", "DiscoveryIdentity-Id": "10.0.0.1"}
AS_JSON = {"Accept": "application/json"}
GZIP = {"Accept-Encoding": "gzip"}
SENT_JSON = {"Content-Type": "application/json"}


def instance(app, identity, **more):
    return {"instance": {
        "instanceId": identity, "hostName": "h.example", "app": app, "ipAddr": "10.0.0.1", "status": "UP", "port": {"$": 8080, "@enabled": "true"},
        "securePort": {"$": 443, "@enabled": "false"}, "vipAddress": app.lower(), "homePageUrl": "http://h.example:8080/", **more}}


JAVA = instance(
    "ORDERS", "h.example:orders:8080", overriddenStatus="UNKNOWN", countryId=1, secureVipAddress="orders", isCoordinatingDiscoveryServer="false",
    dataCenterInfo={"@class": "com.netflix.appinfo.InstanceInfo$DefaultDataCenterInfo", "name": "MyOwn"}, metadata={"@class": "java.util.Collections$EmptyMap"},
    leaseInfo={"renewalIntervalInSecs": 30, "durationInSecs": 90, "registrationTimestamp": 0, "lastRenewalTimestamp": 0, "evictionTimestamp": 0, "serviceUpTimestamp": 0},
    lastUpdatedTimestamp="1764547200000", lastDirtyTimestamp="1764547200123")
OTHERS = {"dataCenterInfo": {"@class": "com.netflix.appinfo.InstanceInfo$DefaultDataCenterInfo", "name": "MyOwn"}}

# Each request: who sends it, the method, the path, the fields, the body, and the status of the answer.
REQUESTS = [
    ("Java", "POST", "/eureka/v2/apps/ORDERS", {**IDENTITY, **GZIP, **SENT_JSON, **AS_JSON}, JAVA, 204),
    ("Java", "GET", "/eureka/v2/apps/?", {**IDENTITY, **GZIP, **AS_JSON, "X-Eureka-Accept": "full"}, None, 200),
    ("Java", "GET", "/eureka/v2/apps/delta?", {**IDENTITY, **GZIP, **AS_JSON, "X-Eureka-Accept": "full"}, None, 403),
    ("Java", "PUT", "/eureka/v2/apps/ORDERS/h.example:orders:8080?status=UP&lastDirtyTimestamp=1764547200123", {**IDENTITY, **GZIP}, None, 200),
    ("Java", "PUT", "/eureka/v2/apps/ORDERS/h.example:orders:8080?status=UP&lastDirtyTimestamp=1764547200999", {**IDENTITY, **GZIP}, None, 404),
    ("Java", "GET", "/eureka/v2/vips/orders", {**IDENTITY, **GZIP, **AS_JSON}, None, 404),
    ("Java", "DELETE", "/eureka/v2/apps/ORDERS/h.example:orders:8080", {**IDENTITY, **GZIP}, None, 200),
    ("Spring Cloud", "POST", "/eureka/apps/ORDERS", {**GZIP, **SENT_JSON, **AS_JSON}, JAVA, 204),
    ("Spring Cloud", "GET", "/eureka/apps/", {**GZIP, **AS_JSON}, None, 200),
    ("Spring Cloud", "GET", "/eureka/apps/delta", {**GZIP, **AS_JSON}, None, 403),
    ("Spring Cloud", "PUT", "/eureka/apps/ORDERS/h.example:orders:8080?status=UP&lastDirtyTimestamp=1764547200123", {**AS_JSON}, None, 200),
    ("Spring Cloud", "PUT", "/eureka/apps/ORDERS/h.example:orders:8080/status?value=OUT_OF_SERVICE&lastDirtyTimestamp=1764547200123", {**AS_JSON}, None, 200),
    ("Spring Cloud", "DELETE", "/eureka/apps/ORDERS/h.example:orders:8080/status?lastDirtyTimestamp=1764547200123", {**AS_JSON}, None, 200),
    ("eureka-js-client", "POST", "/eureka/v2/apps/web", {**SENT_JSON, **AS_JSON}, instance("web", "web-1", **OTHERS), 204),
    ("eureka-js-client", "PUT", "/eureka/v2/apps/web/web-1", {}, None, 200),
    ("eureka-js-client", "GET", "/eureka/v2/apps/", {**GZIP, **AS_JSON}, None, 200),
    ("eureka-js-client", "DELETE", "/eureka/v2/apps/web/web-1", {}, None, 200),
    ("py-eureka-client", "POST", "/eureka/apps/TOOLS", {**SENT_JSON, "Accept-Encoding": "gzip"},
     instance("TOOLS", "10.0.0.1:tools:9000", lastUpdatedTimestamp=1764547200000, lastDirtyTimestamp=1764547200000, overriddenstatus="UNKNOWN",
              leaseInfo={"renewalIntervalInSecs": 30, "durationInSecs": 90}, **OTHERS), 204),
    ("py-eureka-client", "PUT", "/eureka/apps/TOOLS/10.0.0.1:tools:9000?status=UP&lastDirtyTimestamp=1764547200000", {}, None, 200),
    ("py-eureka-client", "GET", "/eureka/apps/", {"Accept-Encoding": "gzip"}, None, 200),
    ("py-eureka-client", "DELETE", "/eureka/apps/TOOLS/10.0.0.1:tools:9000", {}, None, 200),
    ("Steeltoe", "POST", "/eureka/apps/BILLING", {"Content-Type": "application/json; charset=utf-8", **AS_JSON},
     instance("BILLING", "h.example:billing:5000", overriddenstatus="UNKNOWN", asgName=None, lastDirtyTimestamp="1764547200000",
              leaseInfo={"renewalIntervalInSecs": 30, "durationInSecs": 90}, metadata={"zone": "a"}, **OTHERS), 204),
    ("Steeltoe", "PUT", "/eureka/apps/BILLING/h.example:billing:5000?status=UP&lastDirtyTimestamp=1764547200000", {**AS_JSON}, None, 200),
    ("Steeltoe", "GET", "/eureka/apps", {**AS_JSON}, None, 200),
    ("Steeltoe", "GET", "/eureka/apps/delta", {**AS_JSON}, None, 403),
    ("XML", "GET", "/eureka/apps/", {"Accept": "application/xml"}, None, 200),
    ("XML", "POST", "/eureka/apps/OLD", {"Content-Type": "application/xml"}, "<instance><app>OLD</app></instance>", 400),
    ("gzip", "POST", "/eureka/apps/OLD", {**SENT_JSON, "Content-Encoding": "gzip"}, "x", 415),
]


def ask(connection, method, path, fields, content):
    body = content if content is None or isinstance(content, str) else json.dumps(content)
    connection.request(method, path, body, fields)
    answer = connection.getresponse()
    text = answer.read()
    if text:
        if answer.getheader("Content-Type") != "application/json" or answer.getheader("Content-Encoding"):
            raise SystemExit(f"{method} {path}: not plain JSON")
        json.loads(text)
    return answer.status


def main():
    server = subprocess.Popen([sys.argv[1], "serve", "--port", "0", "--sessions", "1"], stderr=subprocess.PIPE, stdout=subprocess.DEVNULL, text=True)
    port = int(re.search(r":(\d+)$", server.stderr.readline().strip()).group(1))
    connection = http.client.HTTPConnection("127.0.0.1", port, timeout=10)
    wrong = 0
    for who, method, path, fields, content, status in REQUESTS:
        told = ask(connection, method, path, fields, content)
        wrong += told != status
        print(f"{who}: {method} {path}: {told}" + ("" if told == status else f", and not {status}"))
    connection.close()
    server.wait(timeout=120)
    return 1 if wrong else 0


sys.exit(main())
