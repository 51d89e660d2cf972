/* The texts of movaliren.h for Python: moments as datetimes or as seconds since 1970, columns of integers behind the buffer
 * protocol, and errors with their place and row. All that a module makes stands in its state, so that each interpreter has
 * its own. */
#define PY_SSIZE_T_CLEAN
#include <Python.h>
#include <datetime.h>
#include <movaliren.h>

/* What a module has made. */
struct state {
    PyObject *error, *description_error, *read_error, *row_error;
    PyObject *capsule; /* keeps what `datetime` points to */
    PyDateTime_CAPI *datetime;
    PyObject *nanosecond, *utcoffset; /* names of attributes */
};

static const struct state *state_of(PyObject *module)
{
    return PyModule_GetState(module);
}

/* ---- errors */

/* An error of this type with its words and its number, or NULL after an exception. */
static PyObject *error_of(PyObject *type, const char *words, ptrdiff_t number)
{
    PyObject *error = PyObject_CallFunction(type, "s", words);
    PyObject *value = error ? PyLong_FromSsize_t(number) : NULL;
    if (!value || PyObject_SetAttrString(error, "number", value) != 0)
        Py_CLEAR(error);
    Py_XDECREF(value);
    return error;
}

/* The error with one attribute more, or NULL after an exception. Takes over the error and the value. */
static PyObject *with(PyObject *error, const char *name, PyObject *value)
{
    if (error && (!value || PyObject_SetAttrString(error, name, value) != 0))
        Py_CLEAR(error);
    Py_XDECREF(value);
    return error;
}

static PyObject *raised(PyObject *error)
{
    if (error)
        PyErr_SetObject((PyObject *)Py_TYPE(error), error);
    Py_XDECREF(error);
    return NULL;
}

/* The words of an error of the library. */
struct words {
    char text[201];
};

static struct words words_of(ptrdiff_t number)
{
    struct words words = { { 0 } };
    movaliren_strerror_r(number, words.text, sizeof words.text - 1);
    return words;
}

static PyObject *raise_number(const struct state *state, ptrdiff_t number)
{
    return raised(error_of(state->error, words_of(number).text, number));
}

static PyObject *raise_at(PyObject *type, const char *words, ptrdiff_t number, size_t at)
{
    return raised(with(error_of(type, words, number), "at", PyLong_FromSize_t(at)));
}

static PyObject *raise_not_read(const struct state *state, const struct movaliren_read_error *error)
{
    char words[MOVALIREN_WORDS_SIZE];
    MOVALIREN_TO_ARRAY(words, movaliren_read_strerror_r, error);
    return raise_at(state->read_error, words, MOVALIREN_ERROR_NOT_READ, error->at);
}

/* Raises the error of a row of a column, with the lines before it. */
static PyObject *raise_row(const struct state *state, ptrdiff_t number, Py_ssize_t row, PyObject *lines)
{
    char words[256];
    PyObject *error;
    snprintf(words, sizeof words, "row %zd: %s", row, words_of(number).text);
    error = with(error_of(state->row_error, words, number), "row", PyLong_FromSsize_t(row));
    return raised(with(error, "lines", Py_NewRef(lines)));
}

/* ---- arguments */

/* The arguments of a call as Python passes them: those by position, and then those by name. */
struct given {
    PyObject *const *values;
    Py_ssize_t count;
    PyObject *names;
};

static int take_named(const char *const *names, int most, PyObject *name, PyObject *value, PyObject **taken)
{
    int i = 0;
    while (i < most && PyUnicode_CompareWithASCIIString(name, names[i]) != 0)
        i++;
    if (i < most && !taken[i]) {
        taken[i] = value;
        return 0;
    }
    PyErr_Format(PyExc_TypeError, i < most ? "the argument '%U' is given twice" : "there is no argument '%U'", name);
    return -1;
}

/* Takes the arguments of these names, of which the first one must be given. Those that are not given are NULL. */
static int take_given(const struct given *given, const char *const *names, int most, PyObject **taken)
{
    const Py_ssize_t named = given->names ? PyTuple_GET_SIZE(given->names) : 0;
    if (given->count > most) {
        PyErr_Format(PyExc_TypeError, "%zd arguments are given, and %d are the most", given->count, most);
        return -1;
    }
    for (int i = 0; i < most; i++)
        taken[i] = i < given->count ? given->values[i] : NULL;
    for (Py_ssize_t i = 0; i < named; i++)
        if (take_named(names, most, PyTuple_GET_ITEM(given->names, i), given->values[given->count + i], taken) != 0)
            return -1;
    if (taken[0])
        return 0;
    PyErr_Format(PyExc_TypeError, "the argument '%s' is missing", names[0]);
    return -1;
}

/* Takes a number of 64 bits, which stays as it is where none is given. */
static int take_number(PyObject *value, long long *number)
{
    if (value)
        *number = PyLong_AsLongLong(value);
    return value && *number == -1 && PyErr_Occurred() ? -1 : 0;
}

static int take_text(PyObject *value, const char **text, Py_ssize_t *len)
{
    if (PyUnicode_Check(value))
        return (*text = PyUnicode_AsUTF8AndSize(value, len)) ? 0 : -1;
    PyErr_Format(PyExc_TypeError, "a text is a str, and not of the type '%s'", Py_TYPE(value)->tp_name);
    return -1;
}

/* Takes the number of decimals of ISO 8601, which are 9 where none is given. */
static int take_decimals(PyObject *value, struct movaliren_iso8601_config *config)
{
    const struct movaliren_iso8601_config of_nine = MOVALIREN_ISO8601_DEFAULT;
    long long decimals = 9;
    if (take_number(value, &decimals) != 0)
        return -1;
    *config = of_nine;
    config->decimals = (uint8_t)decimals;
    if (decimals >= 0 && decimals <= 9)
        return 0;
    PyErr_SetString(PyExc_ValueError, "decimals are 0 to 9");
    return -1;
}

/* Takes the whole seconds of a timedelta. */
static int take_delta(PyObject *delta, int64_t *offset)
{
    *offset = (int64_t)PyDateTime_DELTA_GET_DAYS(delta) * 86400 + PyDateTime_DELTA_GET_SECONDS(delta);
    if (PyDateTime_DELTA_GET_MICROSECONDS(delta) == 0)
        return 0;
    PyErr_SetString(PyExc_ValueError, "the offset from UTC has a part of a second");
    return -1;
}

/* ---- values */

/* Whether the object is a timedelta of less than 24 hours either way, as each offset from UTC. */
static int is_offset(const struct state *state, PyObject *delta)
{
    if (!PyObject_TypeCheck(delta, state->datetime->DeltaType))
        return 0;
    return PyDateTime_DELTA_GET_DAYS(delta) == 0
        || (PyDateTime_DELTA_GET_DAYS(delta) == -1
            && (PyDateTime_DELTA_GET_SECONDS(delta) > 0 || PyDateTime_DELTA_GET_MICROSECONDS(delta) > 0));
}

/* The offset of a datetime. Its own method asks the zone, tests the answer, and takes six times as long as the zone, so that
 * the zone is asked first. */
static PyObject *delta_of(const struct state *state, PyObject *moment)
{
    PyObject *zone = PyDateTime_DATE_GET_TZINFO(moment), *delta;
    if (zone == Py_None || Py_TYPE(moment) != state->datetime->DateTimeType)
        return PyObject_CallMethodNoArgs(moment, state->utcoffset);
    delta = PyObject_CallMethodOneArg(zone, state->utcoffset, moment);
    if (!delta || is_offset(state, delta))
        return delta;
    Py_DECREF(delta);
    return PyObject_CallMethodNoArgs(moment, state->utcoffset);
}

/* Takes the offset of a datetime at another zone than UTC. */
static int take_zone(const struct state *state, PyObject *moment, int64_t *offset)
{
    PyObject *delta = delta_of(state, moment);
    int answer = -1;
    if (delta && PyObject_TypeCheck(delta, state->datetime->DeltaType))
        answer = take_delta(delta, offset);
    else if (delta)
        PyErr_SetString(PyExc_ValueError, "a datetime without a time zone has no offset from UTC");
    Py_XDECREF(delta);
    return answer;
}

static int take_offset(const struct state *state, PyObject *moment, struct movaliren_moment *parts)
{
    int64_t offset = 0;
    const int is_utc = PyDateTime_DATE_GET_TZINFO(moment) == state->datetime->TimeZone_UTC;
    if (!is_utc && take_zone(state, moment, &offset) != 0)
        return -1;
    parts->offset_hours = (int8_t)(offset / 3600);
    parts->offset_minutes = (int8_t)(offset / 60 % 60);
    parts->offset_seconds = (int8_t)(offset % 60);
    return 0;
}

/* Takes the nanoseconds that a Timestamp of pandas has beside its microseconds. */
static int take_finer(const struct state *state, PyObject *moment, struct movaliren_moment *parts)
{
    PyObject *value = PyObject_GetAttr(moment, state->nanosecond);
    long long finer = 0;
    int answer;
    if (!value) {
        PyErr_Clear();
        return 0;
    }
    answer = take_number(value, &finer);
    Py_DECREF(value);
    parts->nanosecond += (uint32_t)finer;
    return answer;
}

static void take_date(PyObject *date, struct movaliren_moment *parts)
{
    parts->year = PyDateTime_GET_YEAR(date);
    parts->month = PyDateTime_GET_MONTH(date);
    parts->day = PyDateTime_GET_DAY(date);
}

static int take_moment(const struct state *state, PyObject *moment, struct movaliren_moment *parts)
{
    if (!PyObject_TypeCheck(moment, state->datetime->DateTimeType)) {
        PyErr_Format(PyExc_TypeError, "a moment is a datetime, and not of the type '%s'", Py_TYPE(moment)->tp_name);
        return -1;
    }
    take_date(moment, parts);
    parts->hour = PyDateTime_DATE_GET_HOUR(moment);
    parts->minute = PyDateTime_DATE_GET_MINUTE(moment);
    parts->second = PyDateTime_DATE_GET_SECOND(moment);
    parts->nanosecond = (uint32_t)PyDateTime_DATE_GET_MICROSECOND(moment) * 1000;
    if (Py_TYPE(moment) != state->datetime->DateTimeType && take_finer(state, moment, parts) != 0)
        return -1;
    return take_offset(state, moment, parts);
}

/* ---- formats */

/* A format with its choices. Seconds since 1970 are written in UTC, or at the offset where it is local. */
struct form {
    enum { RFC3339, RFC2822, ISO8601, DESCRIPTION } format;
    struct movaliren_iso8601_config config;
    const struct movaliren_description *description;
    int is_local;
    int64_t offset;
};

/* A moment by its parts or by its seconds, or a date. */
struct value {
    enum { BY_PARTS, BY_SECONDS, A_DATE } kind;
    struct movaliren_moment parts;
    struct movaliren_utc_moment moment;
};

static ptrdiff_t write_parts(const struct form *form, const struct movaliren_moment *parts, char *buffer, size_t size)
{
    switch (form->format) {
    case RFC3339:
        return movaliren_rfc3339(parts, buffer, size);
    case RFC2822:
        return movaliren_rfc2822(parts, buffer, size);
    case ISO8601:
        return movaliren_iso8601_with(&form->config, parts, buffer, size);
    default:
        return movaliren_description_format(form->description, parts, buffer, size);
    }
}

static ptrdiff_t write_utc(const struct form *form, const struct movaliren_utc_moment *m, char *buffer, size_t size)
{
    switch (form->format) {
    case RFC3339:
        return movaliren_rfc3339_utc(m->seconds, m->nanosecond, buffer, size);
    case RFC2822:
        return movaliren_rfc2822_utc(m->seconds, m->nanosecond, buffer, size);
    case ISO8601:
        return movaliren_iso8601_with_utc(&form->config, m->seconds, m->nanosecond, buffer, size);
    default:
        return movaliren_description_format_utc(form->description, m->seconds, m->nanosecond, buffer, size);
    }
}

static ptrdiff_t write_local(const struct form *form, const struct movaliren_utc_moment *m, char *buffer, size_t size)
{
    switch (form->format) {
    case RFC3339:
        return movaliren_rfc3339_local(m->seconds, m->nanosecond, form->offset, buffer, size);
    case RFC2822:
        return movaliren_rfc2822_local(m->seconds, m->nanosecond, form->offset, buffer, size);
    case ISO8601:
        return movaliren_iso8601_with_local(&form->config, m->seconds, m->nanosecond, form->offset, buffer, size);
    default:
        return movaliren_description_format_local(
            form->description, m->seconds, m->nanosecond, form->offset, buffer, size);
    }
}

static ptrdiff_t write_seconds(const struct form *form, const struct movaliren_utc_moment *m, char *buffer, size_t size)
{
    return form->is_local ? write_local(form, m, buffer, size) : write_utc(form, m, buffer, size);
}

static ptrdiff_t write_one(const struct form *form, const struct value *v, char *buffer, size_t size)
{
    switch (v->kind) {
    case BY_PARTS:
        return write_parts(form, &v->parts, buffer, size);
    case BY_SECONDS:
        return write_seconds(form, &v->moment, buffer, size);
    default:
        return movaliren_description_format_date(
            form->description, v->parts.year, v->parts.month, v->parts.day, buffer, size);
    }
}

/* The text as a str. One of a description may be longer than the buffer, and then has its greatest length. */
static PyObject *text_of(const struct state *state, const struct form *form, const struct value *v)
{
    char buffer[MOVALIREN_ISO8601_WITH_SIZE], *wide;
    PyObject *text;
    ptrdiff_t count = write_one(form, v, buffer, sizeof buffer), most;
    if (count >= 0)
        return PyUnicode_FromStringAndSize(buffer, count);
    if (count != MOVALIREN_ERROR_BUFFER_TOO_SMALL)
        return raise_number(state, count);
    most = movaliren_description_max_length(form->description);
    if (!(wide = PyMem_Malloc((size_t)most)))
        return PyErr_NoMemory();
    count = write_one(form, v, wide, (size_t)most);
    text = count < 0 ? raise_number(state, count) : PyUnicode_FromStringAndSize(wide, count);
    PyMem_Free(wide);
    return text;
}

/* Takes the offset from UTC of what is written: None for UTC, or seconds, or a timedelta. */
static int take_local(const struct state *state, PyObject *offset, struct form *form)
{
    long long seconds = 0;
    form->is_local = offset && offset != Py_None;
    if (!form->is_local)
        return 0;
    if (PyObject_TypeCheck(offset, state->datetime->DeltaType))
        return take_delta(offset, &form->offset);
    if (take_number(offset, &seconds) != 0)
        return -1;
    form->offset = seconds;
    return 0;
}

static PyObject *by_moment(const struct state *state, const struct form *form, PyObject *moment)
{
    struct value v = { .kind = BY_PARTS };
    return take_moment(state, moment, &v.parts) == 0 ? text_of(state, form, &v) : NULL;
}

/* Takes (seconds, nanosecond=0, offset=None), and for ISO 8601 also decimals=9. */
static PyObject *by_seconds(const struct state *state, struct form *form, const struct given *given)
{
    static const char *const names[] = { "seconds", "nanosecond", "offset", "decimals" };
    PyObject *taken[4] = { NULL };
    long long seconds = 0, nanosecond = 0;
    struct value v = { .kind = BY_SECONDS };
    if (take_given(given, names, form->format == ISO8601 ? 4 : 3, taken) != 0 || take_number(taken[0], &seconds) != 0
        || take_number(taken[1], &nanosecond) != 0 || take_local(state, taken[2], form) != 0
        || take_decimals(taken[3], &form->config) != 0)
        return NULL;
    v.moment.seconds = seconds;
    /* No number is cut to one in range. */
    v.moment.nanosecond = nanosecond < 0 || nanosecond > UINT32_MAX ? UINT32_MAX : (uint32_t)nanosecond;
    return text_of(state, form, &v);
}

/* ---- columns */

/* Numbers since 1970, each so many bytes behind the one before it, of which so many are a second. */
struct column {
    const char *numbers;
    Py_ssize_t count, stride;
    int64_t unit;
};

static int take_unit(PyObject *value, int64_t *unit)
{
    static const char *const names[] = { "s", "ms", "us", "ns" };
    const char *name = "s";
    Py_ssize_t len;
    if (value && take_text(value, &name, &len) != 0)
        return -1;
    *unit = 1;
    for (int i = 0; i < 4; i++, *unit *= 1000)
        if (strcmp(name, names[i]) == 0)
            return 0;
    PyErr_Format(PyExc_ValueError, "the unit '%s' is none of 's', 'ms', 'us' and 'ns'", name);
    return -1;
}

/* Takes the byte at the end of each line, which is a line feed where none is given. */
static int take_end(PyObject *value, char *end)
{
    const char *text = "\n";
    Py_ssize_t len = 1;
    if (value && take_text(value, &text, &len) != 0)
        return -1;
    *end = *text;
    if (len == 1)
        return 0;
    PyErr_SetString(PyExc_ValueError, "a line ends with one byte");
    return -1;
}

/* Takes an object whose buffer has integers of 64 bits in one dimension. */
static int take_column(PyObject *object, Py_buffer *view, struct column *column)
{
    const char *format;
    if (PyObject_GetBuffer(object, view, PyBUF_STRIDED_RO | PyBUF_FORMAT) != 0)
        return -1;
    format = view->format ? view->format : "B";
    format += *format == '@' || *format == '=' || *format == '<';
    if (view->ndim == 1 && view->itemsize == 8 && (strcmp(format, "q") == 0 || strcmp(format, "l") == 0)) {
        column->numbers = view->buf;
        column->count = view->shape[0];
        /* An array of ctypes has no strides. */
        column->stride = view->strides ? view->strides[0] : view->itemsize;
        return 0;
    }
    PyErr_Format(PyExc_TypeError, "a column has integers of 64 bits in one dimension, and not the format '%s'", format);
    PyBuffer_Release(view);
    return -1;
}

/* The moment of a row. Before 1970 its second is rounded down. */
static struct movaliren_utc_moment moment_at(const struct column *column, Py_ssize_t row)
{
    struct movaliren_utc_moment moment;
    int64_t number, rest;
    memcpy(&number, column->numbers + row * column->stride, sizeof number);
    rest = number % column->unit;
    moment.seconds = number / column->unit - (rest < 0);
    moment.nanosecond = (uint32_t)((rest < 0 ? rest + column->unit : rest) * (1000000000 / column->unit));
    return moment;
}

/* An array of bytes that grows. */
struct bytes {
    char *at;
    size_t len, size;
};

static int grow(struct bytes *bytes, size_t more)
{
    const size_t size = 2 * bytes->size + more;
    char *at = PyMem_Realloc(bytes->at, size);
    if (!at) {
        PyErr_NoMemory();
        return -1;
    }
    bytes->at = at;
    bytes->size = size;
    return 0;
}

/* Adds a line to the array. Returns 0 or the error of the library, and 1 after an exception. */
static ptrdiff_t add_line(struct bytes *bytes, const struct form *form, char end, struct movaliren_utc_moment moment)
{
    ptrdiff_t count;
    for (;;) {
        count = write_seconds(form, &moment, bytes->at + bytes->len, bytes->size - bytes->len - 1);
        if (count != MOVALIREN_ERROR_BUFFER_TOO_SMALL)
            break;
        if (grow(bytes, 64) != 0)
            return 1;
    }
    if (count < 0)
        return count;
    bytes->len += (size_t)count;
    bytes->at[bytes->len++] = end;
    if (bytes->len == bytes->size)
        return grow(bytes, 64) == 0 ? 0 : 1;
    return 0;
}

static PyObject *lines_of(const struct state *state, const struct form *form, char end, const struct column *column)
{
    struct bytes bytes = { NULL, 0, 0 };
    PyObject *lines = NULL;
    ptrdiff_t error = grow(&bytes, (size_t)column->count * 32 + 64) == 0 ? 0 : 1;
    Py_ssize_t row = 0;
    while (error == 0 && row < column->count) {
        error = add_line(&bytes, form, end, moment_at(column, row));
        row += error == 0;
    }
    if (error <= 0)
        lines = PyBytes_FromStringAndSize(bytes.at, (Py_ssize_t)bytes.len);
    PyMem_Free(bytes.at);
    if (lines && error < 0) {
        raise_row(state, error, row, lines);
        Py_CLEAR(lines);
    }
    return lines;
}

/* Takes (column, unit="s", offset=None, end="\n"), and for ISO 8601 also decimals=9. */
static PyObject *by_column(const struct state *state, struct form *form, const struct given *given)
{
    static const char *const names[] = { "column", "unit", "offset", "end", "decimals" };
    PyObject *taken[5] = { NULL }, *lines;
    struct column column;
    Py_buffer view;
    char end;
    if (take_given(given, names, form->format == ISO8601 ? 5 : 4, taken) != 0 || take_unit(taken[1], &column.unit) != 0
        || take_local(state, taken[2], form) != 0 || take_end(taken[3], &end) != 0
        || take_decimals(taken[4], &form->config) != 0 || take_column(taken[0], &view, &column) != 0)
        return NULL;
    lines = lines_of(state, form, end, &column);
    PyBuffer_Release(&view);
    return lines;
}

/* ---- functions of a format */

#define GIVEN PyObject *const *values, Py_ssize_t count, PyObject *names

/* The calls of seconds and of a column, by a format. */
#define BY_SECONDS_AND_COLUMN(name, number)                                                        \
    static PyObject *name##_at(PyObject *module, GIVEN)                                            \
    {                                                                                              \
        const struct given given = { values, count, names };                                       \
        struct form form = { .format = number };                                                   \
        return by_seconds(state_of(module), &form, &given);                                        \
    }                                                                                              \
                                                                                                   \
    static PyObject *name##_lines(PyObject *module, GIVEN)                                         \
    {                                                                                              \
        const struct given given = { values, count, names };                                       \
        struct form form = { .format = number };                                                   \
        return by_column(state_of(module), &form, &given);                                         \
    }

BY_SECONDS_AND_COLUMN(rfc3339, RFC3339)
BY_SECONDS_AND_COLUMN(rfc2822, RFC2822)
BY_SECONDS_AND_COLUMN(iso8601, ISO8601)

static PyObject *rfc3339(PyObject *module, PyObject *moment)
{
    const struct form form = { .format = RFC3339 };
    return by_moment(state_of(module), &form, moment);
}

static PyObject *rfc2822(PyObject *module, PyObject *moment)
{
    const struct form form = { .format = RFC2822 };
    return by_moment(state_of(module), &form, moment);
}

static PyObject *iso8601(PyObject *module, GIVEN)
{
    static const char *const known[] = { "moment", "decimals" };
    const struct given given = { values, count, names };
    struct form form = { .format = ISO8601 };
    PyObject *taken[2];
    if (take_given(&given, known, 2, taken) != 0 || take_decimals(taken[1], &form.config) != 0)
        return NULL;
    return by_moment(state_of(module), &form, taken[0]);
}

/* ---- reading */

/* Takes what a datetime has of a nanosecond. The call of this name returns the rest too. */
static int take_microsecond(uint32_t nanosecond, const char *name_at, int *microsecond)
{
    *microsecond = (int)(nanosecond / 1000);
    if (nanosecond % 1000 == 0)
        return 0;
    PyErr_Format(PyExc_ValueError, "a datetime has microseconds alone: %s returns the nanosecond", name_at);
    return -1;
}

/* The zone of an offset: UTC, or one of the type timezone. */
static PyObject *zone_of(const PyDateTime_CAPI *datetime, const struct movaliren_moment *m)
{
    const int seconds = m->offset_hours * 3600 + m->offset_minutes * 60 + m->offset_seconds;
    PyObject *delta, *zone;
    if (seconds == 0)
        return Py_NewRef(datetime->TimeZone_UTC);
    if (!(delta = datetime->Delta_FromDelta(0, seconds, 0, 1, datetime->DeltaType)))
        return NULL;
    zone = datetime->TimeZone_FromTimeZone(delta, NULL);
    Py_DECREF(delta);
    return zone;
}

static PyObject *datetime_of(const struct state *state, const struct movaliren_moment *m, const char *name_at)
{
    const PyDateTime_CAPI *datetime = state->datetime;
    PyObject *zone, *moment;
    int microsecond;
    if (take_microsecond(m->nanosecond, name_at, &microsecond) != 0 || !(zone = zone_of(datetime, m)))
        return NULL;
    moment = datetime->DateTime_FromDateAndTime(
        m->year, m->month, m->day, m->hour, m->minute, m->second, microsecond, zone, datetime->DateTimeType);
    Py_DECREF(zone);
    return moment;
}

/* The datetime in UTC of a moment. */
static PyObject *datetime_in_utc(const struct state *state, const struct movaliren_utc_moment *m)
{
    const PyDateTime_CAPI *datetime = state->datetime;
    const int days = (int)(m->seconds / 86400), seconds = (int)(m->seconds % 86400);
    PyObject *epoch, *delta, *moment = NULL;
    int microsecond;
    if (take_microsecond(m->nanosecond, "read_at", &microsecond) != 0)
        return NULL;
    epoch = datetime->DateTime_FromDateAndTime(1970, 1, 1, 0, 0, 0, 0, datetime->TimeZone_UTC, datetime->DateTimeType);
    delta = datetime->Delta_FromDelta(days, seconds, microsecond, 1, datetime->DeltaType);
    if (epoch && delta)
        moment = PyNumber_Add(epoch, delta);
    Py_XDECREF(delta);
    Py_XDECREF(epoch);
    return moment;
}

static PyObject *pair_of(const struct movaliren_utc_moment *m)
{
    return Py_BuildValue("(LI)", (long long)m->seconds, (unsigned)m->nanosecond);
}

/* The calls that read a text strictly and leniently, into the parts of a moment and into seconds. */
struct reader {
    ptrdiff_t (*by_parts[2])(const void *, size_t, struct movaliren_moment *, struct movaliren_read_error *);
    ptrdiff_t (*in_utc[2])(const void *, size_t, struct movaliren_utc_moment *, struct movaliren_read_error *);
    const char *name_at;
};

static const struct reader of_rfc3339 = { { movaliren_read_rfc3339, movaliren_read_rfc3339_lenient },
    { movaliren_read_rfc3339_utc, movaliren_read_rfc3339_lenient_utc }, "read_rfc3339_at" };
static const struct reader of_rfc2822 = { { movaliren_read_rfc2822, movaliren_read_rfc2822_lenient },
    { movaliren_read_rfc2822_utc, movaliren_read_rfc2822_lenient_utc }, "read_rfc2822_at" };

/* Takes (text, lenient=False). */
static int take_to_read(const struct given *given, const char **text, Py_ssize_t *len, int *is_lenient)
{
    static const char *const names[] = { "text", "lenient" };
    PyObject *taken[2];
    if (take_given(given, names, 2, taken) != 0 || take_text(taken[0], text, len) != 0)
        return -1;
    *is_lenient = taken[1] ? PyObject_IsTrue(taken[1]) : 0;
    return *is_lenient < 0 ? -1 : 0;
}

static PyObject *read_by(const struct state *state, const struct reader *reader, const struct given *given)
{
    const char *text;
    Py_ssize_t len;
    int is_lenient;
    struct movaliren_moment m;
    struct movaliren_read_error error;
    if (take_to_read(given, &text, &len, &is_lenient) != 0)
        return NULL;
    if (reader->by_parts[is_lenient](text, (size_t)len, &m, &error) < 0)
        return raise_not_read(state, &error);
    return datetime_of(state, &m, reader->name_at);
}

static PyObject *read_at_by(const struct state *state, const struct reader *reader, const struct given *given)
{
    const char *text;
    Py_ssize_t len;
    int is_lenient;
    struct movaliren_utc_moment m;
    struct movaliren_read_error error;
    if (take_to_read(given, &text, &len, &is_lenient) != 0)
        return NULL;
    if (reader->in_utc[is_lenient](text, (size_t)len, &m, &error) < 0)
        return raise_not_read(state, &error);
    return pair_of(&m);
}

/* Two functions that read by a reader. */
#define READS(name)                                                                                \
    static PyObject *read_##name(PyObject *module, GIVEN)                                          \
    {                                                                                              \
        const struct given given = { values, count, names };                                       \
        return read_by(state_of(module), &of_##name, &given);                                      \
    }                                                                                              \
                                                                                                   \
    static PyObject *read_##name##_at(PyObject *module, GIVEN)                                     \
    {                                                                                              \
        const struct given given = { values, count, names };                                       \
        return read_at_by(state_of(module), &of_##name, &given);                                   \
    }

READS(rfc3339)
READS(rfc2822)

/* Takes (text, decimals=9). */
static int take_iso8601(
    const struct given *given, const char **text, Py_ssize_t *len, struct movaliren_iso8601_config *config)
{
    static const char *const names[] = { "text", "decimals" };
    PyObject *taken[2];
    if (take_given(given, names, 2, taken) != 0 || take_text(taken[0], text, len) != 0)
        return -1;
    return take_decimals(taken[1], config);
}

static PyObject *read_iso8601(PyObject *module, GIVEN)
{
    const struct given given = { values, count, names };
    const char *text;
    Py_ssize_t len;
    struct movaliren_iso8601_config config;
    struct movaliren_moment m;
    struct movaliren_read_error error;
    if (take_iso8601(&given, &text, &len, &config) != 0)
        return NULL;
    if (movaliren_read_iso8601_with(&config, text, (size_t)len, &m, &error) < 0)
        return raise_not_read(state_of(module), &error);
    return datetime_of(state_of(module), &m, "read_iso8601_at");
}

static PyObject *read_iso8601_at(PyObject *module, GIVEN)
{
    const struct given given = { values, count, names };
    const char *text;
    Py_ssize_t len;
    struct movaliren_iso8601_config config;
    struct movaliren_utc_moment m;
    struct movaliren_read_error error;
    if (take_iso8601(&given, &text, &len, &config) != 0)
        return NULL;
    if (movaliren_read_iso8601_with_utc(&config, text, (size_t)len, &m, &error) < 0)
        return raise_not_read(state_of(module), &error);
    return pair_of(&m);
}

/* ---- descriptions */

struct description {
    PyObject_HEAD
    struct movaliren_description own;
};

static struct movaliren_description *own_of(PyObject *self)
{
    return &((struct description *)self)->own;
}

static struct form form_of(PyObject *self)
{
    const struct form form = { .format = DESCRIPTION, .description = own_of(self) };
    return form;
}

/* No class is derived from a description's. */
static const struct state *state_above(PyObject *self)
{
    return PyType_GetModuleState(Py_TYPE(self));
}

static void free_description(PyObject *self)
{
    PyTypeObject *type = Py_TYPE(self);
    type->tp_free(self);
    Py_DECREF(type);
}

/* Makes a description of its text, and returns -1 after an exception. */
static int fill(const struct state *state, struct movaliren_description *own, PyObject *given, int is_strftime)
{
    char words[MOVALIREN_WORDS_SIZE];
    struct movaliren_parse_error error;
    const char *text;
    Py_ssize_t len;
    ptrdiff_t number;
    if (take_text(given, &text, &len) != 0)
        return -1;
    number = is_strftime ? movaliren_description_parse_strftime(own, text, (size_t)len, &error)
                         : movaliren_description_parse(own, text, (size_t)len, &error);
    if (number == 0)
        return 0;
    MOVALIREN_TO_ARRAY(words, movaliren_parse_strerror_r, &error);
    raise_at(state->description_error, words, number, error.at);
    return -1;
}

static PyObject *made(PyTypeObject *type, PyObject *text, int is_strftime)
{
    PyObject *self = type->tp_alloc(type, 0);
    if (self && fill(PyType_GetModuleState(type), own_of(self), text, is_strftime) != 0)
        Py_CLEAR(self);
    return self;
}

static PyObject *new_description(PyTypeObject *type, PyObject *args, PyObject *named)
{
    static char *names[] = { "text", NULL };
    PyObject *text;
    return PyArg_ParseTupleAndKeywords(args, named, "O", names, &text) ? made(type, text, 0) : NULL;
}

static PyObject *of_strftime(PyObject *type, PyObject *text)
{
    return made((PyTypeObject *)type, text, 1);
}

static PyObject *format(PyObject *self, PyObject *moment)
{
    const struct form form = form_of(self);
    return by_moment(state_above(self), &form, moment);
}

static PyObject *format_at(PyObject *self, GIVEN)
{
    const struct given given = { values, count, names };
    struct form form = form_of(self);
    return by_seconds(state_above(self), &form, &given);
}

static PyObject *format_date(PyObject *self, PyObject *date)
{
    const struct state *state = state_above(self);
    const struct form form = form_of(self);
    struct value v = { .kind = A_DATE };
    if (!PyObject_TypeCheck(date, state->datetime->DateType))
        return PyErr_Format(PyExc_TypeError, "a date is of the type 'date', and not '%s'", Py_TYPE(date)->tp_name);
    take_date(date, &v.parts);
    return text_of(state, &form, &v);
}

static PyObject *lines(PyObject *self, GIVEN)
{
    const struct given given = { values, count, names };
    struct form form = form_of(self);
    return by_column(state_above(self), &form, &given);
}

/* Raises the error of a text that a description does not read. */
static PyObject *raise_unread(const struct state *state, ptrdiff_t number, const struct movaliren_read_error *error)
{
    return number == MOVALIREN_ERROR_NOT_READ ? raise_not_read(state, error) : raise_number(state, number);
}

/* Reads a text that has Unix time, or is in UTC. */
static PyObject *read_in_utc(PyObject *self, const char *text, Py_ssize_t len)
{
    struct movaliren_utc_moment m;
    struct movaliren_read_error error;
    const ptrdiff_t number = movaliren_description_read_utc(own_of(self), text, (size_t)len, &m, &error);
    return number < 0 ? raise_unread(state_above(self), number, &error) : datetime_in_utc(state_above(self), &m);
}

static PyObject *read_text(PyObject *self, PyObject *given)
{
    struct movaliren_moment m;
    struct movaliren_read_error error;
    Py_ssize_t len;
    ptrdiff_t number;
    const char *text;
    if (take_text(given, &text, &len) != 0)
        return NULL;
    number = movaliren_description_read(own_of(self), text, (size_t)len, &m, &error);
    if (number == MOVALIREN_ERROR_UNDETERMINED)
        return read_in_utc(self, text, len);
    return number < 0 ? raise_unread(state_above(self), number, &error) : datetime_of(state_above(self), &m, "read_at");
}

static PyObject *read_text_at(PyObject *self, PyObject *given)
{
    struct movaliren_utc_moment m;
    struct movaliren_read_error error;
    Py_ssize_t len;
    ptrdiff_t number;
    const char *text;
    if (take_text(given, &text, &len) != 0)
        return NULL;
    number = movaliren_description_read_utc(own_of(self), text, (size_t)len, &m, &error);
    return number < 0 ? raise_unread(state_above(self), number, &error) : pair_of(&m);
}

static PyObject *max_length(PyObject *self, void *closure)
{
    (void)closure;
    return PyLong_FromSsize_t(movaliren_description_max_length(own_of(self)));
}

static PyObject *has_component(PyObject *self, void *closure)
{
    (void)closure;
    return PyBool_FromLong(movaliren_description_has_component(own_of(self)));
}

#define WITH_NAMES(function) (PyCFunction)(void (*)(void))(function), METH_FASTCALL | METH_KEYWORDS

static PyMethodDef description_methods[] = {
    { "strftime", of_strftime, METH_O | METH_CLASS, "The description in the syntax of strftime." },
    { "format", format, METH_O, "The text of a datetime." },
    { "format_at", WITH_NAMES(format_at), "The text of a moment by its seconds since 1970." },
    { "format_date", format_date, METH_O, "The text of a date." },
    { "read", read_text, METH_O, "The datetime that the description writes as this text. Without an offset it is in UTC." },
    { "read_at", read_text_at, METH_O, "Its seconds since 1970 and its nanosecond." },
    { "lines", WITH_NAMES(lines), "The lines of a column of moments." },
    { NULL, NULL, 0, NULL },
};

static PyGetSetDef description_fields[] = {
    { "max_length", max_length, NULL, "The most bytes of a text.", NULL },
    { "has_component", has_component, NULL, "Whether any part is a component.", NULL },
    { NULL, NULL, NULL, NULL, NULL },
};

static PyType_Slot description_slots[] = {
    { Py_tp_doc, "A description in brackets, as [year]-[month]-[day]." },
    { Py_tp_new, new_description },
    { Py_tp_dealloc, free_description },
    { Py_tp_methods, description_methods },
    { Py_tp_getset, description_fields },
    { 0, NULL },
};

static PyType_Spec description_spec = {
    .name = "movaliren.Description",
    .basicsize = sizeof(struct description),
    .flags = Py_TPFLAGS_DEFAULT | Py_TPFLAGS_IMMUTABLETYPE,
    .slots = description_slots,
};

/* ---- the module */

static PyObject *library_version(PyObject *module, PyObject *nothing)
{
    (void)module, (void)nothing;
    return PyLong_FromUnsignedLong(movaliren_version());
}

static PyMethodDef functions[] = {
    { "rfc3339", rfc3339, METH_O, "The text of RFC 3339 of a datetime." },
    { "rfc3339_at", WITH_NAMES(rfc3339_at), "The same by the seconds since 1970." },
    { "rfc3339_lines", WITH_NAMES(rfc3339_lines), "The lines of a column of moments." },
    { "rfc2822", rfc2822, METH_O, "The text of RFC 2822 of a datetime." },
    { "rfc2822_at", WITH_NAMES(rfc2822_at), "The same by the seconds since 1970." },
    { "rfc2822_lines", WITH_NAMES(rfc2822_lines), "The lines of a column of moments." },
    { "iso8601", WITH_NAMES(iso8601), "The text of ISO 8601 of a datetime." },
    { "iso8601_at", WITH_NAMES(iso8601_at), "The same by the seconds since 1970." },
    { "iso8601_lines", WITH_NAMES(iso8601_lines), "The lines of a column of moments." },
    { "read_rfc3339", WITH_NAMES(read_rfc3339), "The datetime that a text of RFC 3339 means." },
    { "read_rfc3339_at", WITH_NAMES(read_rfc3339_at), "Its seconds since 1970 and its nanosecond." },
    { "read_rfc2822", WITH_NAMES(read_rfc2822), "The datetime that a text of RFC 2822 means, or leniently one of mail or a feed." },
    { "read_rfc2822_at", WITH_NAMES(read_rfc2822_at), "Its seconds since 1970, and the nanosecond 0." },
    { "read_iso8601", WITH_NAMES(read_iso8601), "The datetime that has this text of ISO 8601." },
    { "read_iso8601_at", WITH_NAMES(read_iso8601_at), "Its seconds since 1970 and its nanosecond." },
    { "library_version", library_version, METH_NOARGS, "The version of the library, as 100 for 0.1.0." },
    { NULL, NULL, 0, NULL },
};

/* The library has instructions of x86-64-v2, of which these two came last. */
static int take_processor(void)
{
    __builtin_cpu_init();
    if (__builtin_cpu_supports("sse4.2") && __builtin_cpu_supports("popcnt"))
        return 0;
    PyErr_SetString(PyExc_ImportError, "movaliren needs a processor of the level x86-64-v2");
    return -1;
}

static int take_datetime(struct state *state)
{
    PyObject *module = PyImport_ImportModule("datetime");
    if (!module)
        return -1;
    state->capsule = PyObject_GetAttrString(module, "datetime_CAPI");
    Py_DECREF(module);
    state->datetime = state->capsule ? PyCapsule_GetPointer(state->capsule, PyDateTime_CAPSULE_NAME) : NULL;
    state->nanosecond = PyUnicode_InternFromString("nanosecond");
    state->utcoffset = PyUnicode_InternFromString("utcoffset");
    return state->datetime && state->nanosecond && state->utcoffset ? 0 : -1;
}

/* Adds an exception with this name to the module, and returns it. */
static PyObject *added_error(PyObject *module, const char *name, PyObject *base)
{
    char full[64];
    PyObject *error;
    snprintf(full, sizeof full, "movaliren.%s", name);
    error = base ? PyErr_NewException(full, base, NULL) : NULL;
    if (error && PyModule_AddObjectRef(module, name, error) != 0)
        Py_CLEAR(error);
    return error;
}

static int add_description(PyObject *module)
{
    PyObject *type = PyType_FromModuleAndSpec(module, &description_spec, NULL);
    const int answer = type ? PyModule_AddType(module, (PyTypeObject *)type) : -1;
    Py_XDECREF(type);
    return answer;
}

static int fill_module(PyObject *module)
{
    struct state *state = PyModule_GetState(module);
    if (take_processor() != 0 || take_datetime(state) != 0)
        return -1;
    state->error = added_error(module, "Error", PyExc_ValueError);
    state->description_error = added_error(module, "DescriptionError", state->error);
    state->read_error = added_error(module, "ReadError", state->error);
    state->row_error = added_error(module, "RowError", state->error);
    return state->description_error && state->read_error && state->row_error ? add_description(module) : -1;
}

static int visit_state(PyObject *module, visitproc visit, void *arg)
{
    const struct state *state = state_of(module);
    Py_VISIT(state->error);
    Py_VISIT(state->description_error);
    Py_VISIT(state->read_error);
    Py_VISIT(state->row_error);
    return 0;
}

static int clear_state(PyObject *module)
{
    struct state *state = PyModule_GetState(module);
    Py_CLEAR(state->error);
    Py_CLEAR(state->description_error);
    Py_CLEAR(state->read_error);
    Py_CLEAR(state->row_error);
    Py_CLEAR(state->capsule);
    Py_CLEAR(state->nanosecond);
    Py_CLEAR(state->utcoffset);
    return 0;
}

static void free_state(void *module)
{
    clear_state(module);
}

static PyModuleDef_Slot slots[] = {
    { Py_mod_exec, fill_module },
/* From 3.13 on, datetime too has a state of its own in each interpreter. */
#if PY_VERSION_HEX >= 0x030d0000
    { Py_mod_multiple_interpreters, Py_MOD_PER_INTERPRETER_GIL_SUPPORTED },
    { Py_mod_gil, Py_MOD_GIL_NOT_USED },
#endif
    { 0, NULL },
};

static struct PyModuleDef definition = {
    PyModuleDef_HEAD_INIT,
    .m_name = "movaliren._movaliren",
    .m_size = sizeof(struct state),
    .m_methods = functions,
    .m_slots = slots,
    .m_traverse = visit_state,
    .m_clear = clear_state,
    .m_free = free_state,
};

PyMODINIT_FUNC PyInit__movaliren(void)
{
    return PyModuleDef_Init(&definition);
}
