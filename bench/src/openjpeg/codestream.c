/* What `jp2.c` names of the codestream's part and what is never called here. It has no header, so that no signature has
   to be repeated. */
#include <stdlib.h>

#define NEVER_CALLED(name) \
    void name(void)        \
    {                      \
        abort();           \
    }

NEVER_CALLED(opj_j2k_decode_tile)
NEVER_CALLED(opj_j2k_decoder_set_strict_mode)
NEVER_CALLED(opj_j2k_encode)
NEVER_CALLED(opj_j2k_encoder_set_extra_options)
NEVER_CALLED(opj_j2k_end_compress)
NEVER_CALLED(opj_j2k_end_decompress)
NEVER_CALLED(opj_j2k_get_tile)
NEVER_CALLED(opj_j2k_read_header)
NEVER_CALLED(opj_j2k_read_tile_header)
NEVER_CALLED(opj_j2k_set_decode_area)
NEVER_CALLED(opj_j2k_set_decoded_components)
NEVER_CALLED(opj_j2k_set_decoded_resolution_factor)
NEVER_CALLED(opj_j2k_set_threads)
NEVER_CALLED(opj_j2k_setup_decoder)
NEVER_CALLED(opj_j2k_start_compress)
NEVER_CALLED(opj_j2k_write_tile)
NEVER_CALLED(j2k_dump)
NEVER_CALLED(j2k_get_cstr_index)
NEVER_CALLED(j2k_get_cstr_info)
