/* A program of other people's code: the single-file libraries of Debian's libstb-dev. */
#define STBI_NO_SIMD
#define STB_IMAGE_IMPLEMENTATION
#define STB_IMAGE_WRITE_IMPLEMENTATION
#define STB_IMAGE_RESIZE_IMPLEMENTATION
#define STB_TRUETYPE_IMPLEMENTATION
#define STB_RECT_PACK_IMPLEMENTATION
#define STB_SPRINTF_IMPLEMENTATION
#define STB_DS_IMPLEMENTATION
#define STB_DXT_IMPLEMENTATION
#define STB_PERLIN_IMPLEMENTATION
#define STB_HEXWAVE_IMPLEMENTATION
#define STB_HERRINGBONE_WANG_TILE_IMPLEMENTATION
#define STB_CONNECTED_COMPONENTS_IMPLEMENTATION
#define STBCC_GRID_COUNT_X_LOG2 6
#define STBCC_GRID_COUNT_Y_LOG2 6
#include <stb/stb_image.h>
#include <stb/stb_image_write.h>
#include <stb/stb_image_resize.h>
#include <stb/stb_rect_pack.h>
#include <stb/stb_truetype.h>
#include <stb/stb_sprintf.h>
#include <stb/stb_ds.h>
#include <stb/stb_dxt.h>
#include <stb/stb_perlin.h>
#include <stb/stb_hexwave.h>
#include <stb/stb_connected_components.h>

int main(int argc, char **argv)
{
    char text[64];
    stbsp_snprintf(text, sizeof text, "%d %s", argc, argv[0]);
    unsigned char pixels[4 * 4 * 4] = {0}, small[2 * 2 * 4], block[16];
    stbir_resize_uint8(pixels, 4, 4, 0, small, 2, 2, 0, 4);
    stb_compress_dxt_block(block, pixels, 1, STB_DXT_NORMAL);
    return stb_perlin_noise3(0.5f, 0.5f, 0.5f, 0, 0, 0) > 2.0f;
}
