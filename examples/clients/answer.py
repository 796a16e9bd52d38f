#!/usr/bin/env python3
"""An answer as a table of pandas, its sums exact; a refusal says its rule."""

import decimal
import os
import urllib.error
import urllib.parse

import pandas

server = os.environ.get("SERVER", "http://127.0.0.1:8080")
query = "slice pay by region.area where time.month=Jan"
try:
    address = f"{server}/v1/query?q={urllib.parse.quote_plus(query)}"
    print(pandas.read_csv(address, index_col="region.area", converters={"pay": decimal.Decimal}))
except urllib.error.HTTPError as refusal:
    print(refusal.code, refusal.read().decode())
