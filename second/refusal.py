"""A refused call: its number and its place (card line, station record, booked minute or hourly card, from 1; else 0)."""


class Refusal(Exception):
    def __init__(self, number, place=0):
        super().__init__(number, place)
        self.number = number
        self.place = place
