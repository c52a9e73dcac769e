//! The words of each refusal of images, on the image of chart P of the paper with one fault each.

mod shared;

use shared::sheets::{each, edited, told, IMAGE};

#[test]
fn refusal_11_the_header() {
    let fewer: String = IMAGE.split_inclusive('\n').take(11).collect();
    let count = "3 that begin with 12, the rows, where the first line says 4";
    each(
        11,
        &[
            (edited(IMAGE, 1, 1, "0E"), "line 1, column 1: an image begins with 0F, not 0E"),
            (
                edited(IMAGE, 1, 3, "00"),
                "line 1, column 3: the number of schemes is 00; it should be 01 to 10, 1 to 16 in decimal",
            ),
            (
                edited(IMAGE, 1, 5, "00"),
                "line 1, column 5: the highest label is 00; it should be 01 at least, for label 1 is in every image",
            ),
            (
                edited(IMAGE, 1, 7, "0401"),
                "line 1, column 7: the number of rows is 0401, 1,025 in decimal; it should be 0400 at most",
            ),
            (
                edited(IMAGE, 1, 11, "01"),
                "line 1, column 11: the handler is scheme 01; it should be 02, or 00 for none",
            ),
            (
                edited(IMAGE, 1, 3, "0304000403"),
                "line 1, column 3: the first line makes the image 13 lines, but there are 12: 2 that begin with 10, the \
                 entries, where the first line says 3",
            ),
            (
                edited(IMAGE, 1, 3, "0304000404"),
                "line 1, column 11: the handler is scheme 04; it should be 02 to 03, or 00 for none",
            ),
            (
                edited(IMAGE, 1, 3, "0104000402"),
                "line 1, column 11: the handler is scheme 02; with one scheme it should be 00",
            ),
            (
                edited(IMAGE, 1, 13, "01"),
                "line 1, column 13: 01 stands here, but the first line has no use for this byte: it should be 00",
            ),
            (
                fewer,
                &format!("line 1, column 7: the first line makes the image 12 lines, but there are 11: {count}"),
            ),
        ],
    );
}

#[test]
fn refusal_12_a_place() {
    let order = "rows stand in the order of their labels";
    each(
        12,
        &[
            (
                edited(IMAGE, 3, 3, "01"),
                "line 3, column 3: the entry of scheme 2 belongs here, which begins with 1002, not 1001",
            ),
            (edited(IMAGE, 5, 1, "12"), "line 5, column 1: label 1 belongs here, which begins with 1101, not 1201"),
            (edited(IMAGE, 9, 1, "13"), "line 9, column 1: a row belongs here, which begins with 12, not 13"),
            (
                edited(IMAGE, 12, 3, "02"),
                &format!(
                    "line 12, column 3: this row leaves label 02, but the row before it leaves label 03; {order}"
                ),
            ),
        ],
    );
}

#[test]
fn refusal_13_an_image_field() {
    let of_1 = "which belongs to scheme 1 (byte 4 of line 6)";
    let entry = "line 3, column 5: the entry of scheme 2 is label";
    let home = "line 4, column 9: the home label, 0, is 11000400010000000000EA in every image";
    let cases = [
        ((3, 5, "02"), format!("{entry} 02, {of_1}")),
        ((3, 5, "09"), format!("{entry} 09, but the highest label is 04")),
        ((3, 5, "00"), format!("{entry} 00, which is the home label of scheme 1 (line 4)")),
        ((2, 9, "01"), "line 2, column 9: 01 stands here, but an entry has no use for this byte: it should be 00".into()),
        ((4, 9, "02"), format!("{home}: this byte should be 01, not 02")),
        ((6, 5, "03"), "line 6, column 5: the kind of the label is 03; from label 2 up it should be 00 plain, 01 or 02 a call".into()),
        ((6, 7, "05"), "line 6, column 7: the scheme called is 05; it should be 02".into()),
        ((7, 7, "01"), "line 7, column 7: a plain label calls nothing: this byte should be 00, not 01".into()),
        ((8, 9, "05"), "line 8, column 9: the owner is scheme 05; it should be 01 to 02".into()),
        ((7, 11, "05"), "line 7, column 11: the result is 05; it should be 00 (keep), 01 (write 0) or 02 (write 1)".into()),
        ((9, 3, "01"), "line 9, column 3: a row leaves label 02 or one above it, not 01".into()),
        ((12, 3, "05"), "line 12, column 3: the label that this row leaves is label 05, but the highest label is 04".into()),
        ((10, 11, "02"), "line 10, column 11: the values are 02, but the care mask two bytes before has only 01".into()),
        ((10, 13, "01"), "line 10, column 13: the function bit is 01, but label 03 (line 7) calls no function".into()),
        ((10, 13, "03"), "line 10, column 13: the function bit is 03; it should be 00, 01, or 02 for none".into()),
        ((10, 15, "02"), format!("line 10, column 15: the next label is 02, {of_1}, but the row leaves a label of scheme 2")),
        ((10, 15, "07"), "line 10, column 15: the next label is label 07, but the highest label is 04".into()),
        ((12, 17, "01"), "line 12, column 17: 01 stands here, but a row has no use for this byte: it should be 00".into()),
    ];
    for ((line, column, digits), words) in cases {
        assert_eq!(told(edited(IMAGE, line, column, digits)), (13, words));
    }
}
