#include "streams.h"

static OPJ_SIZE_T read_bytes(void *buffer, OPJ_SIZE_T count, void *data)
{
    struct memory *memory = data;
    OPJ_SIZE_T left = memory->length - memory->place;
    if (left == 0) {
        return (OPJ_SIZE_T) -1;
    }
    if (count > left) {
        count = left;
    }
    memcpy(buffer, memory->bytes + memory->place, count);
    memory->place += count;
    return count;
}

static OPJ_SIZE_T write_bytes(void *buffer, OPJ_SIZE_T count, void *data)
{
    struct memory *memory = data;
    if (memory->place > memory->length || count > memory->length - memory->place) {
        return (OPJ_SIZE_T) -1;
    }
    memcpy(memory->bytes + memory->place, buffer, count);
    memory->place += count;
    return count;
}

static OPJ_OFF_T skip_bytes(OPJ_OFF_T count, void *data)
{
    struct memory *memory = data;
    memory->place += (OPJ_SIZE_T) count;
    return count;
}

static OPJ_BOOL seek_byte(OPJ_OFF_T place, void *data)
{
    struct memory *memory = data;
    memory->place = (OPJ_SIZE_T) place;
    return OPJ_TRUE;
}

static opj_stream_private_t *stream_over(struct memory *memory, OPJ_SIZE_T buffer, OPJ_BOOL reads)
{
    opj_stream_t *stream = opj_stream_create(buffer, reads);
    opj_stream_set_user_data(stream, memory, NULL);
    opj_stream_set_skip_function(stream, skip_bytes);
    opj_stream_set_seek_function(stream, seek_byte);
    return (opj_stream_private_t *) stream;
}

opj_stream_private_t *memory_reader(struct memory *memory)
{
    OPJ_SIZE_T most = OPJ_J2K_STREAM_CHUNK_SIZE;
    opj_stream_private_t *stream = stream_over(memory, memory->length < most ? memory->length : most, OPJ_TRUE);
    opj_stream_set_read_function((opj_stream_t *) stream, read_bytes);
    opj_stream_set_user_data_length((opj_stream_t *) stream, memory->length);
    return stream;
}

opj_stream_private_t *memory_writer(struct memory *memory)
{
    opj_stream_private_t *stream = stream_over(memory, OPJ_J2K_STREAM_CHUNK_SIZE, OPJ_FALSE);
    opj_stream_set_write_function((opj_stream_t *) stream, write_bytes);
    return stream;
}
