#!/usr/bin/env python3
"""Writes a FHIR R4 Bundle of small Patients, the same on each run: make_bundle.py FILE [N], with 40000 for N."""

import json
import sys

FAMILY = ["Smith", "Garc\u00eda", "M\u00fcller", "Okafor", "Nguyen", "Kowalski", "Haddad", "Silva", "Jansen", "Tanaka", "Rossi"]
GIVEN = ["Ada", "Bram", "Chidi", "Dana", "Elif", "Felix", "Grace", "Hugo", "Ines", "Jonas", "Keiko", "Liam", "Mara"]
CITY = ["Utrecht", "Leeds", "Porto", "Krakow", "Lyon", "Tampere", "Graz"]
GEOLOCATION = "http://hl7.org/fhir/StructureDefinition/geolocation"
# Python writes a decimal without its last zeros, so each stands as a word until the text is made.
DECIMALS = {'"@latitude"': "1.50", '"@longitude"': "-103.80"}


def patient(i):
    family, given = FAMILY[i % len(FAMILY)], [GIVEN[i % len(GIVEN)], GIVEN[(3 * i + 1) % len(GIVEN)]]
    birth = f"{1930 + i % 80}-{1 + i % 12:02}-{1 + i % 28:02}"
    title = f'<p class="name">{given[0]} <b>{family}</b></p><p title="born">{birth}</p>'
    return {
        "resourceType": "Patient",
        "id": f"p{i:07}",
        "meta": {"versionId": str(1 + i % 9), "lastUpdated": f"2026-{1 + i % 12:02}-{1 + i % 28:02}T08:{i % 60:02}:00Z"},
        "text": {"status": "generated", "div": f'<div xmlns="http://www.w3.org/1999/xhtml">{title}</div>'},
        "identifier": [{"use": "usual", "system": "urn:oid:1.2.36.146.595.217.0.1", "value": f"{7919 * i % 10**8:08}"}],
        "name": [{"use": "official", "family": family, "given": given}],
        "telecom": [{"system": "phone", "value": f"+31 30 {104729 * i % 10**7:07}", "use": "home"}],
        "gender": ["female", "male", "other", "unknown"][i % 4],
        "birthDate": birth,
        "address": [
            {
                "extension": [
                    {
                        "url": GEOLOCATION,
                        "extension": [
                            {"url": "latitude", "valueDecimal": "@latitude"},
                            {"url": "longitude", "valueDecimal": "@longitude"},
                        ],
                    }
                ],
                "line": [f"{1 + i % 250} Station Road"],
                "city": CITY[i % len(CITY)],
                "postalCode": f"{1000 + 37 * i % 9000} AB",
            }
        ],
    }


def text_of(value):
    text = json.dumps(value, separators=(",", ":"))
    for word, decimal in DECIMALS.items():
        text = text.replace(word, decimal)
    return text


def main(path, count):
    with open(path, "w", encoding="ascii", newline="") as out:
        out.write('{"resourceType":"Bundle","id":"patients","type":"collection","entry":[')
        for i in range(count):
            resource = patient(i)
            full = f"https://example.org/fhir/Patient/{resource['id']}"
            out.write("," * (i > 0) + text_of({"fullUrl": full, "resource": resource}))
        out.write("]}")


if __name__ == "__main__":
    if len(sys.argv) not in (2, 3):
        sys.exit(f"usage: {sys.argv[0]} FILE [N]")
    main(sys.argv[1], int(sys.argv[2]) if len(sys.argv) == 3 else 40000)
