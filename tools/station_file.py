"""Writes a station file in the manual's columns (001, section 3.3) from the published sample: python3 tools/station_file.py SAMPLE.json > STATION.txt

The station card is (5X,I4,1X,3A6,A4,A3,1X,I2,1X,I2,2X,I3,1X,I2), a constituent card (5X,A5,28X,F8.4,F7.2). Amplitudes and phase lags stand as
printed. A blank card ends the constituents.
"""

import json
import sys


def station_card(station):
    latitude = "%2d %02d" % (station["latitude_deg"], station["latitude_min_used"])
    longitude = "%3d %02d" % (station["longitude_deg_west"], station["longitude_min"])
    return "     %4d %-22s%-3s %s  %s" % (station["number"], station["name"], station["zone"], latitude, longitude)


def constituent_card(constituent):
    return "     %-5s%28s%8s%7s" % (constituent["name"], "", constituent["amplitude"], constituent["phase"])


def main():
    with open(sys.argv[1]) as file:
        prediction = json.load(file)["prediction"]
    print(station_card(prediction["station"]))
    for constituent in prediction["constituents"]:
        print(constituent_card(constituent))
    print()


if __name__ == "__main__":
    main()
