/* The image's lines as the translator wrote them, in flash. IMAGE is its file. */
    .section .rodata.image, "a"
    .global image_start
image_start:
    .incbin IMAGE
    .global image_end
image_end:
