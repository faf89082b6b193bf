"""Tables for other programs: values between commas, and JSON."""
import csv
import json


def put_csv(out, columns, rows):
    """A line of names, and one for each row; an empty cell where there is no value."""
    table = csv.writer(out, lineterminator="\n")
    table.writerow(columns)
    table.writerows(rows)


def put_json(out, value):
    json.dump(value, out, indent=1)
    out.write("\n")


def objects(columns, rows):
    """Rows as objects by their columns' names."""
    return [dict(zip(columns, row)) for row in rows]


def put(out, how, columns, rows):
    """A table as `csv`, or as a list of objects (`json`)."""
    if how == "json":
        put_json(out, objects(columns, rows))
    else:
        put_csv(out, columns, rows)
