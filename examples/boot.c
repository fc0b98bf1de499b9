/* Shows where the sections of a boot image or a vendor boot image stand: boot IMAGE */
#include "abootimg.h"

#include <stdio.h>

int main(int argc, char **argv) {
    static const char *const names[] = {"",          "kernel",         "ramdisk", "second", "recovery_dtbo", "dtb",
                                        "signature", "vendor_ramdisk", "table",   "bootconfig"};
    static uint8_t head[4096];
    abt_boot boot;
    FILE *image = argc == 2 ? fopen(argv[1], "rb") : NULL;
    if (image == NULL) {
        fprintf(stderr, "usage: boot IMAGE\n");
        return 2;
    }
    size_t length = fread(head, 1, sizeof head, image);
    fclose(image);
    if (abt_boot_info(head, length, &boot) != 0) {
        fprintf(stderr, "refused: %u (%u)\n", boot.fault, boot.detail);
        return 1;
    }
    printf("%s version %u, pages of %u bytes\n", boot.kind == ABT_BOOT ? "boot" : "vendor boot", boot.version,
           boot.page_size);
    for (uint32_t i = 0; i < boot.count; i++) {
        const abt_section *section = &boot.sections[i];
        if (section->kind < sizeof names / sizeof *names)
            printf("%s at %llu, %u bytes\n", names[section->kind], (unsigned long long)section->at, section->size);
    }
    return 0;
}
