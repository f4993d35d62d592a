// Makes a lossless codestream of drawn components with OpenJPEG, for demo/make-pictures.
//
//   codestream FILE.j2k WIDTH HEIGHT X0 Y0 COMPONENT...
//
// A component is DRAWING:PRECISION, with an s for signed samples, and :DXxDY where it is subsampled: red:8, opacity:8:2x2, blue:12s.
// The drawings are red, green, blue, opacity, grey and indexN. Each is another one, so no plane can pass for its neighbour.
#include <openjpeg.h>
#include <stdbool.h>
#include <stdio.h>
#include <stdlib.h>
#include <string.h>

enum { MOST_COMPONENTS = 16 };

struct component {
  char drawing[16];
  unsigned indices; // of a drawing indexN
  unsigned prec;
  bool sgnd;
  unsigned dx, dy;
};

struct area {
  unsigned width, height, x0, y0;
};

static bool parse_component(const char *text, struct component *c)
{
  char sign = '\0';
  c->dx = c->dy = 1;
  int read = sscanf(text, "%15[a-z0-9]:%u%c%ux%u", c->drawing, &c->prec, &sign, &c->dx, &c->dy);
  if (read >= 3 && sign == 's') {
    c->sgnd = true;
    sscanf(text, "%*[a-z0-9]:%*us:%ux%u", &c->dx, &c->dy);
  }
  bool index = sscanf(c->drawing, "index%u", &c->indices) == 1;
  return read >= 2 && c->prec >= 1 && c->prec <= 31 && c->dx >= 1 && c->dy >= 1 && (!index || c->indices >= 1);
}

// How much of a drawing's full value is there at a point, in 65536ths.
static unsigned share(const char *drawing, struct area a, unsigned x, unsigned y)
{
  if (strcmp(drawing, "red") == 0) {
    return x * 65535u / a.width;
  }
  if (strcmp(drawing, "green") == 0) {
    return y * 65535u / a.height;
  }
  if (strcmp(drawing, "blue") == 0) {
    return 65535u - (x + y) * 65535u / (a.width + a.height);
  }
  if (strcmp(drawing, "opacity") == 0) {
    return (x / 6 + y / 6) % 2 == 0 ? 65535u : 24000u;
  }
  return (x / 4 * 5 + y / 3 * 7) % 16 * 4096u;
}

static int sample_at(const struct component *c, struct area a, unsigned x, unsigned y)
{
  if (c->indices > 0) {
    return (int)((x / 8 + y / 6) % c->indices) - (c->sgnd ? 2 : 0);
  }
  unsigned long long top = (1ull << c->prec) - 1;
  long long level = (long long)(share(c->drawing, a, x, y) * top / 65535u);
  return (int)(c->sgnd ? level - (1ll << (c->prec - 1)) : level);
}

static unsigned up(unsigned n, unsigned by)
{
  return (n + by - 1) / by;
}

static void describe(const struct component *c, struct area a, opj_image_cmptparm_t *to)
{
  memset(to, 0, sizeof *to);
  to->dx = c->dx;
  to->dy = c->dy;
  to->x0 = a.x0;
  to->y0 = a.y0;
  to->w = up(a.x0 + a.width, c->dx) - up(a.x0, c->dx);
  to->h = up(a.y0 + a.height, c->dy) - up(a.y0, c->dy);
  to->prec = c->prec;
  to->sgnd = c->sgnd;
}

static void draw(const struct component *c, struct area a, opj_image_comp_t *to)
{
  for (unsigned i = 0; i < to->w * to->h; i++) {
    to->data[i] = sample_at(c, a, i % to->w * c->dx, i / to->w * c->dy);
  }
}

static opj_image_t *image_of(const struct component *c, unsigned n, struct area a)
{
  opj_image_cmptparm_t parameters[MOST_COMPONENTS];
  for (unsigned i = 0; i < n; i++) {
    describe(&c[i], a, &parameters[i]);
  }
  opj_image_t *image = opj_image_create(n, parameters, OPJ_CLRSPC_UNSPECIFIED);
  if (image == NULL) {
    return NULL;
  }
  image->x0 = a.x0;
  image->y0 = a.y0;
  image->x1 = a.x0 + a.width;
  image->y1 = a.y0 + a.height;
  for (unsigned i = 0; i < n; i++) {
    draw(&c[i], a, &image->comps[i]);
  }
  return image;
}

static void on_error(const char *message, void *user)
{
  (void)user;
  fprintf(stderr, "codestream: OpenJPEG: %s", message);
}

static bool encode(const char *path, opj_image_t *image)
{
  opj_cparameters_t parameters;
  opj_set_default_encoder_parameters(&parameters);
  parameters.tcp_numlayers = 1;
  parameters.cp_disto_alloc = 1;
  parameters.numresolution = 3;
  opj_codec_t *codec = opj_create_compress(OPJ_CODEC_J2K);
  opj_stream_t *stream = opj_stream_create_default_file_stream(path, OPJ_FALSE);
  opj_set_error_handler(codec, on_error, NULL);
  bool done = stream != NULL && opj_setup_encoder(codec, &parameters, image) && opj_start_compress(codec, image, stream) &&
              opj_encode(codec, stream) && opj_end_compress(codec, stream);
  opj_stream_destroy(stream);
  opj_destroy_codec(codec);
  return done;
}

int main(int argc, char **argv)
{
  struct component c[MOST_COMPONENTS];
  memset(c, 0, sizeof c);
  unsigned n = 0;
  while (6 + (int)n < argc && n < MOST_COMPONENTS && parse_component(argv[6 + n], &c[n])) {
    n++;
  }
  if (n == 0 || 6 + (int)n != argc) {
    fprintf(stderr, "codestream FILE.j2k WIDTH HEIGHT X0 Y0 COMPONENT...: see the source for what a component is\n");
    return 2;
  }
  struct area a = {(unsigned)atoi(argv[2]), (unsigned)atoi(argv[3]), (unsigned)atoi(argv[4]), (unsigned)atoi(argv[5])};
  opj_image_t *image = image_of(c, n, a);
  bool done = image != NULL && encode(argv[1], image);
  opj_image_destroy(image);
  return done ? 0 : 1;
}
