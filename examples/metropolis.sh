#!/bin/sh
# Types the equations of a metropolis, 900 events: when is the forecast of the traffic on its nine motorways lost? README.md tells what each word means.
awk '
function list(name, first, last,   i, all) {
    for (i = first; i <= last; i++) all = all (i > first ? ", " : "") name i
    return all
}
# a name and the chance that it is found failed on a given day, in billionths
function chance(name, billionths) { print "p " name " " billionths }

# what one motorway has beside its sections: three clocks, two computers
function road(r) {
    print "road" r " = at-least 1 in time" r ", centre" r ", section" r "x1"
    print "time" r " = at-least 2 in north" r ", south" r ", control" r
    print "centre" r " = computer" r " and spare" r
    chance("north" r, 2000000); chance("south" r, 2500000); chance("control" r, 1500000)
    chance("computer" r, 500000 + 10000 * r); chance("spare" r, 5000000)
}

# The sections of a motorway are numbered against the traffic, so the next number is where the traffic comes from. Two neighbours share a station.
function section(r, s,   at, from, station, none) {
    at = r "x" s; from = r "x" (s + 1); station = "station" r "x" int((s + 1) / 2)
    none = "blind" at ", cabinet" at ", mute" at
    # In the second of two neighbours the outage stands first: what they share is then asked for at once, and the diagram stays narrow.
    none = s % 2 ? none ", outage" at : "outage" at ", " none
    print "section" at " = at-least 1 in " none ", entry" at
    print "outage" at " = " station " and mains" at
    print "blind" at " = at-least 2 in left" at ", middle" at ", right" at
    print "mute" at " = line" at " and radio" at
    print "entry" at " = loop" at " and camera" at (s < sections ? " and section" from : "")
    if (s % 2) chance(station, 400000)
    chance("mains" at, 3000000)
    chance("left" at, 5000000); chance("middle" at, 4000000); chance("right" at, 6000000)
    chance("cabinet" at, 100000 + 1000 * s)
    chance("line" at, 2000000); chance("radio" at, 10000000)
    chance("loop" at, 5000000); chance("camera" at, 12000000)
}

BEGIN {
    roads = 9
    sections = 10
    print "metropolis = at-least 1 in " list("road", 1, roads)
    for (r = 1; r <= roads; r++) {
        road(r)
        for (s = 1; s <= sections; s++) section(r, s)
    }
}'
