#include "decode.h"

#include <stdio.h>
#include <string.h>

// A stream over bytes in memory. OpenJPEG's library has one over a named file only.
struct cursor {
  struct bytes bytes;
  size_t at;
};

static OPJ_SIZE_T on_read(void *to, OPJ_SIZE_T wanted, void *user)
{
  struct cursor *c = user;
  size_t left = c->bytes.len - c->at;
  if (left == 0) {
    return (OPJ_SIZE_T)-1;
  }
  size_t n = wanted < left ? wanted : left;
  memcpy(to, c->bytes.data + c->at, n);
  c->at += n;
  return n;
}

static OPJ_OFF_T on_skip(OPJ_OFF_T wanted, void *user)
{
  struct cursor *c = user;
  size_t left = c->bytes.len - c->at;
  if (wanted < 0 || (left == 0 && wanted > 0)) {
    return -1;
  }
  size_t n = (uint64_t)wanted < left ? (size_t)wanted : left;
  c->at += n;
  return (OPJ_OFF_T)n;
}

static OPJ_BOOL on_seek(OPJ_OFF_T to, void *user)
{
  struct cursor *c = user;
  if (to < 0 || (uint64_t)to > c->bytes.len) {
    return OPJ_FALSE;
  }
  c->at = (size_t)to;
  return OPJ_TRUE;
}

static opj_stream_t *stream_over(struct cursor *c)
{
  opj_stream_t *s = opj_stream_default_create(OPJ_TRUE);
  if (s != NULL) {
    opj_stream_set_read_function(s, on_read);
    opj_stream_set_skip_function(s, on_skip);
    opj_stream_set_seek_function(s, on_seek);
    opj_stream_set_user_data(s, c, NULL);
    opj_stream_set_user_data_length(s, c->bytes.len);
  }
  return s;
}

// The first error is the cause; what follows it is said by callers further up.
static void on_error(const char *message, void *user)
{
  struct decoded *d = user;
  if (d->message[0] == '\0') {
    snprintf(d->message, sizeof d->message, "%s", message);
    d->message[strcspn(d->message, "\r\n")] = '\0';
  }
}

static void on_other(const char *message, void *user)
{
  (void)message;
  (void)user;
}

static bool run(opj_codec_t *codec, opj_stream_t *stream, struct decoded *d)
{
  opj_dparameters_t parameters;
  opj_set_default_decoder_parameters(&parameters);
  opj_set_error_handler(codec, on_error, d);
  opj_set_warning_handler(codec, on_other, NULL);
  opj_set_info_handler(codec, on_other, NULL);
  // No opj_end_decompress: it reads the boxes behind the codestream, which are no part of the picture.
  return opj_setup_decoder(codec, &parameters) && opj_read_header(stream, codec, &d->image) &&
         opj_decode(codec, stream, d->image);
}

static struct decoded decode(struct bytes bytes, OPJ_CODEC_FORMAT format)
{
  struct decoded d = {NULL, ""};
  struct cursor c = {bytes, 0};
  opj_codec_t *codec = opj_create_decompress(format);
  opj_stream_t *stream = stream_over(&c);
  if (codec == NULL || stream == NULL || !run(codec, stream, &d)) {
    on_error("refused without a message", &d);
    opj_image_destroy(d.image);
    d.image = NULL;
  }
  opj_stream_destroy(stream);
  opj_destroy_codec(codec);
  return d;
}

struct decoded decode_codestream(struct bytes codestream)
{
  return decode(codestream, OPJ_CODEC_J2K);
}

struct decoded decode_file(struct bytes file)
{
  return decode(file, OPJ_CODEC_JP2);
}

void free_decoded(struct decoded *d)
{
  opj_image_destroy(d->image);
  d->image = NULL;
}
