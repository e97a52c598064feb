#!/usr/bin/env python3
"""A host in Python: what the pay slip of March said, and what is right."""
from datetime import date, datetime

import tql

with tql.connect(memory=64 << 20, reserve=1 << 20) as pay:
    pay.execute("""CREATE TABLE pay (employee INTEGER, cents INTEGER, since DATE, until DATE,
        known_from TIMESTAMP GENERATED ALWAYS AS ROW START, known_to TIMESTAMP GENERATED ALWAYS AS ROW END,
        PERIOD FOR valid (since, until), PERIOD FOR SYSTEM_TIME (known_from, known_to),
        CONSTRAINT one_rate PRIMARY KEY (employee, valid WITHOUT OVERLAPS)) WITH SYSTEM VERSIONING""")
    pay.execute("AT ?", [datetime(2024, 1, 10, 9)])
    rates = [(1, 250000, date(2024, 1, 1), date(2025, 1, 1)), (1, 1, date(2024, 12, 1), date(2026, 1, 1))]
    for rate in rates:
        try:
            pay.execute("INSERT INTO pay VALUES (?, ?, ?, ?)", rate)
        except tql.IntegrityError as refused:    # two rates in December
            print(f"E{refused.number}, row {refused.row}, {refused.constraint}")
    pay.execute("AT ?", [datetime(2024, 4, 12, 9)])
    pay.execute("UPDATE pay FOR PORTION OF valid FROM :first TO :last SET cents = :cents WHERE employee = 1",
                {"first": date(2024, 3, 1), "last": date(2025, 1, 1), "cents": 265000})
    for known in (datetime(2024, 3, 31, 12), datetime(2024, 4, 30, 12)):
        query = "SELECT cents FROM pay FOR SYSTEM_TIME AS OF ? WHERE valid CONTAINS ?"
        for cents, in pay.execute(query, (known, date(2024, 3, 15))):
            print(f"{known}: {cents}")
