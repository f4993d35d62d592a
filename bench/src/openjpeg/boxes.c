/* OpenJPEG's box layer, callable: what the oracle does with the crate, step by step the same. `jp2.c` is taken in
   whole, unmodified, because most of its functions are its own. No one listens to its messages. */
#include "jp2.c"

#include "streams.h"

/* A component without samples. */
#define NO_DATA 4294967295u

/* The codestream's part succeeds and does nothing, as the oracle's. */
opj_j2k_t *opj_j2k_create_decompress(void)
{
    return opj_calloc(1, sizeof(opj_j2k_t));
}

opj_j2k_t *opj_j2k_create_compress(void)
{
    return opj_calloc(1, sizeof(opj_j2k_t));
}

void opj_j2k_destroy(opj_j2k_t *j2k)
{
    opj_free(j2k);
}

OPJ_BOOL opj_j2k_decode(opj_j2k_t *j2k, opj_stream_private_t *stream, opj_image_t *image, opj_event_mgr_t *manager)
{
    (void) j2k, (void) stream, (void) image, (void) manager;
    return OPJ_TRUE;
}

OPJ_BOOL opj_j2k_setup_encoder(opj_j2k_t *j2k, opj_cparameters_t *parameters, opj_image_t *image,
                               opj_event_mgr_t *manager)
{
    (void) j2k, (void) parameters, (void) image, (void) manager;
    return OPJ_TRUE;
}

/* These two stand in `openjpeg.c`, which names every codec. */
void *OPJ_CALLCONV opj_image_data_alloc(OPJ_SIZE_T size)
{
    return opj_aligned_malloc(size);
}

void OPJ_CALLCONV opj_image_data_free(void *data)
{
    opj_aligned_free(data);
}

/* Reads the file's boxes, and says where the stream stands after. */
static OPJ_BOOL read_boxes(opj_jp2_t *jp2, const OPJ_BYTE *file, OPJ_SIZE_T length, OPJ_OFF_T *place)
{
    opj_event_mgr_t manager = {0};
    struct memory memory = {(OPJ_BYTE *) file, length, 0};
    opj_stream_private_t *stream = memory_reader(&memory);
    OPJ_BOOL accepted = opj_jp2_read_header_procedure(jp2, stream, &manager);
    *place = opj_stream_tell(stream);
    opj_stream_destroy((opj_stream_t *) stream);
    return accepted;
}

OPJ_BOOL openjpeg_read(const OPJ_BYTE *file, OPJ_SIZE_T length)
{
    OPJ_OFF_T place;
    opj_jp2_t *jp2 = opj_jp2_create(OPJ_TRUE);
    OPJ_BOOL accepted = read_boxes(jp2, file, length, &place);
    opj_jp2_destroy(jp2);
    return accepted;
}

/* Reads, and writes the record's numbers in the order that `linked.rs` names. */
OPJ_BOOL openjpeg_record(const OPJ_BYTE *file, OPJ_SIZE_T length, OPJ_UINT32 *numbers)
{
    OPJ_OFF_T place;
    opj_jp2_t *jp2 = opj_jp2_create(OPJ_TRUE);
    OPJ_BOOL accepted = read_boxes(jp2, file, length, &place);
    opj_jp2_pclr_t *palette = jp2->color.jp2_pclr;
    opj_jp2_cdef_t *definitions = jp2->color.jp2_cdef;
    OPJ_UINT32 found[] = {
        (OPJ_UINT32) place,
        jp2->h,
        jp2->w,
        jp2->numcomps,
        jp2->bpc,
        jp2->C,
        jp2->UnkC,
        jp2->IPR,
        jp2->meth,
        jp2->precedence,
        jp2->approx,
        jp2->enumcs,
        jp2->color.jp2_has_colr,
        jp2->brand,
        jp2->minversion,
        jp2->numcl,
        palette ? palette->nr_entries : 0,
        palette ? palette->nr_channels : 0,
        definitions ? definitions->n : 0,
        jp2->jp2_state,
        jp2->jp2_img_state,
        jp2->has_jp2h,
        jp2->has_ihdr,
    };
    memcpy(numbers, found, sizeof(found));
    opj_jp2_destroy(jp2);
    return accepted;
}

/* A picture from 13 numbers a component, each with samples of its own. */
opj_image_t *openjpeg_image(const OPJ_UINT32 *numbers, OPJ_UINT32 count, const OPJ_INT32 *samples)
{
    opj_image_t *image = opj_image_create0();
    image->comps = opj_calloc(count, sizeof(opj_image_comp_t));
    image->numcomps = count;
    for (OPJ_UINT32 index = 0; index < count; ++index, numbers += 13) {
        opj_image_comp_t *comp = image->comps + index;
        comp->dx = numbers[0];
        comp->dy = numbers[1];
        comp->w = numbers[2];
        comp->h = numbers[3];
        comp->x0 = numbers[4];
        comp->y0 = numbers[5];
        comp->prec = numbers[6];
        comp->bpp = numbers[7];
        comp->sgnd = numbers[8];
        comp->resno_decoded = numbers[9];
        comp->factor = numbers[10];
        comp->alpha = (OPJ_UINT16) numbers[12];
        if (numbers[11] != NO_DATA) {
            OPJ_SIZE_T size = sizeof(OPJ_INT32) * comp->w * comp->h;
            comp->data = opj_image_data_alloc(size);
            memcpy(comp->data, samples + numbers[11], size);
        }
    }
    return image;
}

void openjpeg_destroy(opj_image_t *image)
{
    opj_image_destroy(image);
}

/* Reads the file, then finishes the picture in place. */
OPJ_BOOL openjpeg_finish(const OPJ_BYTE *file, OPJ_SIZE_T length, opj_image_t *image)
{
    OPJ_OFF_T place;
    opj_event_mgr_t manager = {0};
    opj_jp2_t *jp2 = opj_jp2_create(OPJ_TRUE);
    OPJ_BOOL accepted = read_boxes(jp2, file, length, &place) && opj_jp2_decode(jp2, NULL, image, &manager);
    opj_jp2_destroy(jp2);
    return accepted;
}

OPJ_UINT32 openjpeg_planes(const opj_image_t *image)
{
    return image->numcomps;
}

/* Writes the 13 numbers of a plane, of which `data` says only whether there are samples. Answers where these are. */
const OPJ_INT32 *openjpeg_plane(const opj_image_t *image, OPJ_UINT32 index, OPJ_UINT32 *numbers)
{
    const opj_image_comp_t *comp = image->comps + index;
    OPJ_UINT32 found[13] = {
        comp->dx,
        comp->dy,
        comp->w,
        comp->h,
        comp->x0,
        comp->y0,
        comp->prec,
        comp->bpp,
        comp->sgnd,
        comp->resno_decoded,
        comp->factor,
        comp->data ? 0 : NO_DATA,
        comp->alpha,
    };
    memcpy(numbers, found, sizeof(found));
    return comp->data;
}

/* What a picture needs more to be written: x0, y0, x1, y1, the colour space, and a profile. */
void openjpeg_set(opj_image_t *image, const OPJ_UINT32 *corners, OPJ_UINT32 space, const OPJ_BYTE *profile,
                  OPJ_UINT32 length)
{
    image->x0 = corners[0];
    image->y0 = corners[1];
    image->x1 = corners[2];
    image->y1 = corners[3];
    image->color_space = (OPJ_COLOR_SPACE) space;
    if (length) {
        image->icc_profile_buf = opj_malloc(length);
        memcpy(image->icc_profile_buf, profile, length);
        image->icc_profile_len = length;
    }
}

/* Puts the picture's profile into the record. OpenJPEG itself, like the crate, never does; so does the oracle. */
static void store_profile(opj_jp2_t *jp2, const opj_image_t *image)
{
    if (image->icc_profile_len) {
        jp2->color.icc_profile_buf = opj_malloc(image->icc_profile_len);
        memcpy(jp2->color.icc_profile_buf, image->icc_profile_buf, image->icc_profile_len);
        jp2->color.icc_profile_len = image->icc_profile_len;
    }
}

/* The boxes before a codestream and, when it is skipped in place of being written, its header. */
static OPJ_BOOL write_boxes(opj_jp2_t *jp2, opj_stream_private_t *stream, OPJ_OFF_T codestream)
{
    opj_event_mgr_t manager = {0};
    return opj_jp2_default_validation(jp2, stream, &manager) && opj_jp2_write_jp(jp2, stream, &manager)
           && opj_jp2_write_ftyp(jp2, stream, &manager) && opj_jp2_write_jp2h(jp2, stream, &manager)
           && opj_jp2_skip_jp2c(jp2, stream, &manager) && opj_stream_skip(stream, codestream, &manager) == codestream
           && opj_jp2_write_jp2c(jp2, stream, &manager) && opj_stream_flush(stream, &manager);
}

/* Writes to `d`, and answers how many bytes; 0 where OpenJPEG refuses. */
OPJ_SIZE_T openjpeg_write(opj_image_t *image, OPJ_UINT32 codestream, OPJ_BYTE *d, OPJ_SIZE_T length)
{
    /* Of the settings the box layer looks at `jpip_on` alone: off. */
    static opj_cparameters_t parameters;
    opj_event_mgr_t manager = {0};
    struct memory memory = {d, length, 0};
    opj_stream_private_t *stream = memory_writer(&memory);
    opj_jp2_t *jp2 = opj_jp2_create(OPJ_FALSE);
    OPJ_SIZE_T written = 0;
    if (opj_jp2_setup_encoder(jp2, &parameters, image, &manager)) {
        store_profile(jp2, image);
        if (write_boxes(jp2, stream, codestream)) {
            written = (OPJ_SIZE_T) jp2->j2k_codestream_offset + 8;
        }
    }
    opj_jp2_destroy(jp2);
    opj_stream_destroy((opj_stream_t *) stream);
    return written;
}
