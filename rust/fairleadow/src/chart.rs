use crate::call::{answered, length, read, ticks, written};
use crate::{c, Buffer, Refusal, Tick, CHART_TEXT, IMAGE_TEXT, LITTLE_TEXT, RECORDS};

/// A chart's lines that the chart reader takes: each node in a line of 22 hexadecimal digits. The text is lent, or held by the value
/// itself where the library writes it.
///
/// ```
/// use fairleadow::Chart;
///
/// let chart = Chart::parse("00010001000000000000FE\n02010002000000000001FA\n01010000000000000000FE\n")?;
/// assert_eq!(chart.records()?.len(), 30);
/// # Ok::<(), fairleadow::Refusal>(())
/// ```
#[derive(Clone, Copy, Debug, PartialEq, Eq)]
pub struct Chart<B = Buffer<CHART_TEXT>>(B);

impl<B: AsRef<[u8]>> Chart<B> {
    /// The chart of this text, at most [`CHART_TEXT`] characters. Tries the refusals 1 to 9, with 19 after 5.
    ///
    /// ```
    /// use fairleadow::{Chart, Refusal};
    ///
    /// let chart = Chart::parse("00010001000000000000FE\n01010000000000000000FE\n")?;
    /// assert_eq!(chart.text().len(), 46);
    /// assert_eq!(Chart::parse(b"").unwrap_err(), Refusal::BadLength);
    /// assert_eq!(Chart::parse("00010001000000000000FE\n").unwrap_err(), Refusal::BadScheme);
    /// # Ok::<(), Refusal>(())
    /// ```
    pub fn parse(text: B) -> Result<Self, Refusal> {
        let chart = Chart(text);
        chart.records()?;
        Ok(chart)
    }

    /// Its lines.
    ///
    /// ```
    /// use fairleadow::Chart;
    ///
    /// let chart = Chart::little(2, 0)?;
    /// assert_eq!(chart.text(), b"00010001000000000000FE\n01010000000000000000FE\n");
    /// # Ok::<(), fairleadow::Refusal>(())
    /// ```
    pub fn text(&self) -> &[u8] {
        self.0.as_ref()
    }

    /// Its node records, ten bytes each: the kind (0 Begin, 1 End, 2 operation, 3 condition, 4 function), the scheme, what is called, the
    /// two next nodes, the result that is written, and the mask, high byte first. What [`parse`](Chart::parse) took is not refused.
    ///
    /// ```
    /// use fairleadow::{Chart, RECORD};
    ///
    /// let chart = Chart::parse("00010001000000000000FE\n02010002000000000001FA\n01010000000000000000FE\n")?;
    /// let records = chart.records()?;
    /// assert_eq!(records.chunks(RECORD).map(|node| node[0]).collect::<Vec<_>>(), [0, 2, 1]);
    /// # Ok::<(), fairleadow::Refusal>(())
    /// ```
    pub fn records(&self) -> Result<Buffer<RECORDS>, Refusal> {
        Buffer::filled(|out| Ok(written(c::fairleadow_read_chart, self.text(), out)? * crate::RECORD))
    }

    /// How many places its calls need at most, 1 to 16: from a fresh state with so many or more no call is refused with
    /// [`Full`](Refusal::Full) or drops, as long as every number is served by its own scheme. Tries 10 and 20.
    ///
    /// ```
    /// use fairleadow::Chart;
    ///
    /// let chart = Chart::parse("00010001000000000000FE\n01010000000000000000FE\n")?;
    /// assert_eq!(chart.places()?, 1);
    /// # Ok::<(), fairleadow::Refusal>(())
    /// ```
    pub fn places(&self) -> Result<usize, Refusal> {
        read(c::fairleadow_places, self.text())
    }

    /// Runs it in one call, from a fresh state of so many places: one tick a word. For a run that is stopped use
    /// [`dry_run_in`](Chart::dry_run_in), which keeps the ticks before. Tries 10, 14 and 17.
    ///
    /// ```
    /// use fairleadow::Chart;
    ///
    /// let chart = Chart::parse("00010001000000000000FE\n02010002000000000001FA\n01010000000000000000FE\n")?;
    /// let ticks = chart.dry_run(1, &[0, 0, 0])?;
    /// assert_eq!(ticks.map(|tick| (tick.code, tick.mask)), [(0x04, 0), (0x00, 1), (0x04, 0)]);
    /// # Ok::<(), fairleadow::Refusal>(())
    /// ```
    pub fn dry_run<const N: usize>(&self, places: usize, words: &[u16; N]) -> Result<[Tick; N], Refusal> {
        ticks(|masks, codes| self.dry_run_in(places, &mut [0; IMAGE_TEXT], words, masks, codes))
    }

    /// The same with lent buffers: the image, of which no length is told, and a mask and a code for each word. Counts the ticks; with
    /// [`Full`](Refusal::Full) those finished before it stand in the buffers. Tries 10, 16 for the image, 14, 16 for masks and codes, and
    /// 17; once the chart is translated the image stays written.
    ///
    /// ```
    /// use fairleadow::{Chart, Refusal, IMAGE_TEXT};
    ///
    /// let chart = Chart::parse("00010001000000000000FE\n02010002000000000001FA\n01010000000000000000FE\n")?;
    /// let (mut image, mut masks, mut codes) = ([0; IMAGE_TEXT], [0; 3], [0; 3]);
    /// assert_eq!(chart.dry_run_in(1, &mut image, &[0, 0, 0], &mut masks, &mut codes)?, 3);
    /// assert_eq!((masks, codes), ([0, 1, 0], [0x04, 0x00, 0x04]));
    ///
    /// let refusal = chart.dry_run_in(1, &mut image, &[0, 0, 0], &mut masks[..2], &mut codes);
    /// assert_eq!(refusal, Err(Refusal::NoRoom));
    /// # Ok::<(), Refusal>(())
    /// ```
    pub fn dry_run_in(
        &self,
        places: usize,
        image: &mut [u8],
        words: &[u16],
        masks: &mut [u32],
        codes: &mut [u8],
    ) -> Result<usize, Refusal> {
        let text = self.text();
        // SAFETY: text and words are borrowed for the call, which reads them; image, masks and codes are borrowed for it alone.
        answered(|index, count| unsafe {
            c::fairleadow_dry_run(
                text.as_ptr(),
                length(text),
                places as u64,
                image.as_mut_ptr(),
                length(image),
                words.as_ptr(),
                length(words),
                masks.as_mut_ptr(),
                length(masks),
                codes.as_mut_ptr(),
                length(codes),
                index,
                count,
            )
        })
    }
}

impl Chart {
    /// The chart of these node records, ten bytes each, as [`records`](Chart::records) tells them. Tries 1, and 4 to 9, with 19 after 5.
    ///
    /// ```
    /// use fairleadow::{Chart, Refusal};
    ///
    /// let records = [0, 1, 0, 1, 0, 0, 0, 0, 0, 0, 1, 1, 0, 0, 0, 0, 0, 0, 0, 0];
    /// let chart = Chart::of_records(&records)?;
    /// assert_eq!(chart.text(), b"00010001000000000000FE\n01010000000000000000FE\n");
    /// assert_eq!(Chart::of_records(&records[..11]), Err(Refusal::BadLength));
    /// # Ok::<(), Refusal>(())
    /// ```
    pub fn of_records(records: &[u8]) -> Result<Chart, Refusal> {
        Buffer::filled(|out| written(c::fairleadow_write_chart, records, out)).map(Chart)
    }
}

impl Chart<Buffer<LITTLE_TEXT>> {
    /// Little chart `number`, from 0, of `frames` frames: of all accepted charts that have one scheme in 2 to 4 frames and, besides Begin
    /// and End, only operations of mask 0 or 1 that write no result, and conditions of number 0. There are 2 of 2 frames, 18 of 3 and 648
    /// of 4, numbered in the order of their texts. Tries 24.
    ///
    /// ```
    /// use fairleadow::{Chart, Refusal};
    ///
    /// assert_eq!(Chart::little(2, 1)?.text(), b"01010000000000000000FE\n00010000000000000000FF\n");
    /// assert_eq!(Chart::little(2, 2), Err(Refusal::NoLittleChart));
    /// # Ok::<(), Refusal>(())
    /// ```
    pub fn little(frames: usize, number: usize) -> Result<Self, Refusal> {
        let write = |out: &mut [u8]| {
            // SAFETY: the buffer is borrowed for the call alone.
            answered(|index, count| unsafe {
                let (frames, number) = (frames as u64, number as u64);
                c::fairleadow_little_chart(frames, number, out.as_mut_ptr(), length(out), index, count)
            })
        };
        Buffer::filled(write).map(Chart)
    }
}
