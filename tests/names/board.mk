# A board's makefile, as vendors write them after AOSP's build/make/core/Makefile. The variables are those of a
# BoardConfig.mk. The rules call mkbootimg, img2simg and simg2simg by their names.
#
#   make -f board.mk IN=inputs OUT=out
MKBOOTIMG ?= mkbootimg
PRODUCT_OUT := $(OUT)
PLATFORM_VERSION := 13
PLATFORM_SECURITY_PATCH := 2023-05-05

BOARD_KERNEL_BASE := 0x80000000
BOARD_KERNEL_PAGESIZE := 4096
BOARD_KERNEL_CMDLINE := console=ttyMSM0,115200n8 androidboot.hardware=qcom androidboot.console=ttyMSM0 loop.max_part=7
BOARD_KERNEL_OFFSET := 0x00008000
BOARD_RAMDISK_OFFSET := 0x01000000
BOARD_SECOND_OFFSET := 0x00f00000
BOARD_DTB_OFFSET := 0x01f00000
BOARD_TAGS_OFFSET := 0x00000100
BOARD_NAME := marlin

MKBOOTIMG_VERSION_ARGS := --os_version $(PLATFORM_VERSION) --os_patch_level $(PLATFORM_SECURITY_PATCH)
MKBOOTIMG_ADDRESS_ARGS := --base $(BOARD_KERNEL_BASE) --pagesize $(BOARD_KERNEL_PAGESIZE) \
    --kernel_offset $(BOARD_KERNEL_OFFSET) --ramdisk_offset $(BOARD_RAMDISK_OFFSET) \
    --tags_offset=$(BOARD_TAGS_OFFSET) --dtb_offset=$(BOARD_DTB_OFFSET)
MKBOOTIMG_LEGACY_ARGS := $(MKBOOTIMG_ADDRESS_ARGS) --second_offset $(BOARD_SECOND_OFFSET) --board "$(BOARD_NAME)"

IMAGES := boot.img vendor_boot.img recovery.img boot-0.img boot-1.img boot-3.img vendor_boot-3.img both.img
SPARSE := system.img vendor.img vendor-1024.img product.img

all: $(addprefix $(PRODUCT_OUT)/,$(IMAGES) $(SPARSE) super.img)

$(PRODUCT_OUT)/boot.img:
	$(MKBOOTIMG) --kernel $(IN)/kernel --ramdisk $(IN)/ramdisk.img --cmdline "$(BOARD_KERNEL_CMDLINE)" \
	    $(MKBOOTIMG_VERSION_ARGS) --header_version 4 --output $@

$(PRODUCT_OUT)/boot-3.img:
	$(MKBOOTIMG) --kernel $(IN)/kernel $(MKBOOTIMG_VERSION_ARGS) $(MKBOOTIMG_ADDRESS_ARGS) --header_version=3 -o $@

$(PRODUCT_OUT)/vendor_boot.img:
	$(MKBOOTIMG) --dtb $(IN)/dtb.img $(MKBOOTIMG_ADDRESS_ARGS) --vendor_cmdline "$(BOARD_KERNEL_CMDLINE) bootconfig" \
	    --header_version 4 --vendor_bootconfig $(IN)/vendor-bootconfig.img --vendor_ramdisk $(IN)/vendor_ramdisk.img \
	    --ramdisk_type RECOVERY --ramdisk_name recovery --vendor_ramdisk_fragment $(IN)/recovery_ramdisk.img \
	    --ramdisk_type dlkm --ramdisk_name dlkm --board_id0 0x1234 --board_id15=7 \
	    --vendor_ramdisk_fragment $(IN)/dlkm_ramdisk.img --vendor_boot $@

$(PRODUCT_OUT)/vendor_boot-3.img:
	$(MKBOOTIMG) --dtb $(IN)/dtb.img --base $(BOARD_KERNEL_BASE) --vendor_cmdline "$(BOARD_KERNEL_CMDLINE)" \
	    --header_version 3 --vendor_ramdisk $(IN)/vendor_ramdisk.img --board $(BOARD_NAME) --vendor_boot $@

$(PRODUCT_OUT)/recovery.img:
	$(MKBOOTIMG) --kernel $(IN)/kernel --ramdisk $(IN)/recovery_ramdisk.img --recovery_dtbo $(IN)/dtbo.img \
	    --dtb $(IN)/dtb.img --cmdline "$(BOARD_KERNEL_CMDLINE)" $(MKBOOTIMG_LEGACY_ARGS) $(MKBOOTIMG_VERSION_ARGS) \
	    --header_version 2 --output $@

$(PRODUCT_OUT)/boot-1.img:
	$(MKBOOTIMG) --kernel $(IN)/kernel --ramdisk $(IN)/ramdisk.img --recovery_acpio $(IN)/dtbo.img --header_version 1 \
	    --cmdline "$$(printf 'long=%0700d' 0)" --pagesize 2048 -o $@

$(PRODUCT_OUT)/boot-0.img:
	$(MKBOOTIMG) --kernel $(IN)/kernel --ramdisk $(IN)/ramdisk.img --second $(IN)/second.img $(MKBOOTIMG_LEGACY_ARGS) \
	    --cmdline "it's a test" --id --output $@ > $(PRODUCT_OUT)/boot-0.id

$(PRODUCT_OUT)/both.img:
	$(MKBOOTIMG) --kernel $(IN)/kernel --ramdisk $(IN)/ramdisk.img --header_version 4 --pagesize 0x1000 --id \
	    --dtb $(IN)/dtb.img --ramdisk_name init --vendor_ramdisk_fragment $(IN)/vendor_ramdisk.img \
	    --vendor_boot $(PRODUCT_OUT)/both_vendor.img -o $@

$(PRODUCT_OUT)/%-1024.img: $(IN)/%.raw
	img2simg $< $@ 1024

$(PRODUCT_OUT)/%.img: $(IN)/%.raw
	img2simg $< $@

$(PRODUCT_OUT)/super.img: $(PRODUCT_OUT)/system.img
	simg2simg $< $@ 65536
	touch $@
