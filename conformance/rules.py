"""The sentence of the standard that decides a row, by the file and by the rule that the row names."""

RULES = {
    "rfc3339": {
        "date-fullyear": "RFC 3339, 5.6: date-fullyear = 4DIGIT.",
        "full-date": 'RFC 3339, 5.6: full-date = date-fullyear "-" date-month "-" date-mday.',
        "date-month": "RFC 3339, 5.6: date-month = 2DIGIT ; 01-12.",
        "date-mday": "RFC 3339, 5.7: date-mday has at most the days of its month, 29 in February of a leap year.",
        "date-time": 'RFC 3339, 5.6: date-time = full-date "T" full-time; the lenient reading has "t" too (NOTE of 5.6), and no space.',
        "time-hour": "RFC 3339, 5.6: time-hour = 2DIGIT ; 00-23.",
        "time-minute": "RFC 3339, 5.6: time-minute = 2DIGIT ; 00-59.",
        "partial-time": 'RFC 3339, 5.6: partial-time = time-hour ":" time-minute ":" time-second [time-secfrac].',
        "time-second": "RFC 3339, 5.6: time-second is 00-59; 5.7 has 60 at a leap second, for which there is no value here.",
        "time-secfrac": 'RFC 3339, 5.6: time-secfrac = "." 1*DIGIT; the strict reading has at most nine digits, the lenient one cuts the others.',
        "time-offset": 'RFC 3339, 5.6: time-offset = "Z" / ("+" / "-") time-hour ":" time-minute; the lenient reading has "z" too (NOTE of 5.6), '
                       "and -00:00, which says that the offset is unknown (4.3), as UTC.",
        "end": "RFC 3339, 5.6: a date-time ends with its time-offset.",
    },
    "mail": {
        "comment": 'RFC 5322, 3.2.2: comment = "(" *([FWS] ccontent) [FWS] ")", where ccontent may be a comment or a quoted-pair.',
        "FWS": "RFC 5322, 4.3: [CFWS] stands between the parts; between two of digits or letters there is some.",
        "day-of-week": "RFC 5322, 4.3: obs-day-of-week = [CFWS] day-name [CFWS], with a comma after it; names are in any case.",
        "day-of-week-implied": "RFC 5322, 3.3: the day-of-week must be the day implied by the date.",
        "obs-day": "RFC 5322, 4.3: obs-day = [CFWS] 1*2DIGIT [CFWS], of 1 to 31.",
        "day": "RFC 5322, 3.3: the day must be between 1 and the number of days of the month.",
        "month": "RFC 5322, 3.3: month is one of twelve names, in any case.",
        "obs-year": "RFC 5322, 4.3: obs-year = [CFWS] 2*DIGIT [CFWS], here of at most four.",
        "year": "RFC 5322, 3.3: a year of four digits is 1900 or later.",
        "hour": "RFC 5322, 3.3: hour = 2DIGIT, between 00 and 23.",
        "minute": "RFC 5322, 3.3: minute = 2DIGIT, between 00 and 59.",
        "second": "RFC 5322, 3.3: second = 2DIGIT, between 00 and 60; 60 is read as 59.",
        "time-of-day": "RFC 5322, 3.3 and 4.3: a colon stands between hour and minute.",
        "zone": 'RFC 5322, 3.3 and 4.3: zone = (FWS ( "+" / "-" ) 4DIGIT) / obs-zone; the hours are at most 25, the last two digits 00 to 59.',
        "obs-zone": "RFC 5322, 4.3: other names of zones have no meaning that is known; they are refused here.",
        "end": "RFC 5322, 3.3: nothing but [CFWS] follows the zone.",
    },
}
