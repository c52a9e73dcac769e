use crate::call::{read, written};
use crate::{c, Buffer, Chart, Refusal, IMAGE_TEXT};

/// An image's lines that are in order: the machine's table of a chart, as it is stored and sent. The text is lent, as one that lies in
/// flash, or held by the value itself.
///
/// Besides what stands here an image ticks and runs a [`State`](crate::State), and tells of itself.
///
/// ```
/// use fairleadow::{Chart, Image};
///
/// let chart = Chart::parse("00010001000000000000FE\n01010000000000000000FE\n")?;
/// let image = Image::of(&chart)?;
/// let read_back = Image::parse(image.text())?;
/// assert_eq!(read_back.text().len(), 4 * 23);
/// # Ok::<(), fairleadow::Refusal>(())
/// ```
#[derive(Clone, Copy, Debug, PartialEq, Eq)]
pub struct Image<B = Buffer<IMAGE_TEXT>>(B);

impl<B: AsRef<[u8]>> Image<B> {
    /// The image of this text. Tries 1 to 3 and 11 to 13.
    ///
    /// ```
    /// use fairleadow::{Chart, Image, Refusal};
    ///
    /// let image = Image::of(&Chart::little(2, 0)?)?;
    /// assert!(Image::parse(image.text()).is_ok());
    /// assert_eq!(Image::parse(&image.text()[1..]).unwrap_err(), Refusal::BadLength);
    /// # Ok::<(), Refusal>(())
    /// ```
    pub fn parse(text: B) -> Result<Self, Refusal> {
        read(c::fairleadow_check_image, text.as_ref())?;
        Ok(Image(text))
    }

    /// Its lines.
    ///
    /// ```
    /// use fairleadow::{Chart, Image, LINE};
    ///
    /// let image = Image::of(&Chart::little(2, 0)?)?;
    /// assert_eq!(image.text().len() % LINE, 0);
    /// # Ok::<(), fairleadow::Refusal>(())
    /// ```
    pub fn text(&self) -> &[u8] {
        self.0.as_ref()
    }

    /// The image with fewest labels that ticks as it does: labels that act alike become one. Tries 23.
    ///
    /// ```
    /// use fairleadow::{Chart, Image};
    ///
    /// let twice = "00010001000000000000FE\n03010002030000000000F7\n02010004000000000001F8\n\
    ///     02010004000000000001F8\n01010000000000000000FE\n";
    /// let image = Image::of(&Chart::parse(twice)?)?;
    /// let smaller = image.minimise()?;
    /// assert!(smaller.text().len() < image.text().len());
    /// # Ok::<(), fairleadow::Refusal>(())
    /// ```
    pub fn minimise(&self) -> Result<Image, Refusal> {
        Buffer::filled(|out| written(c::fairleadow_minimise, self.text(), out)).map(Image)
    }

    /// The same with a lent buffer, of which as long a text as this one is enough. Tries 23 and 16.
    ///
    /// ```
    /// use fairleadow::{Chart, Image, Refusal};
    ///
    /// let image = Image::of(&Chart::little(2, 0)?)?;
    /// let mut buffer = vec![0; image.text().len()];
    /// assert_eq!(image.minimise_in(&mut buffer)?.text(), image.text());
    /// assert_eq!(image.minimise_in(&mut []).unwrap_err(), Refusal::NoRoom);
    /// # Ok::<(), Refusal>(())
    /// ```
    pub fn minimise_in<'b>(&self, buffer: &'b mut [u8]) -> Result<Image<&'b [u8]>, Refusal> {
        let length = written(c::fairleadow_minimise, self.text(), buffer)?;
        Ok(Image(&buffer[..length]))
    }
}

impl Image {
    /// The image of a chart, which is the translation. Tries 10.
    ///
    /// ```
    /// use fairleadow::{Chart, Image};
    ///
    /// let image = Image::of(&Chart::parse("00010001000000000000FE\n01010000000000000000FE\n")?)?;
    /// assert_eq!(&image.text()[..23], b"0F010100000000000000EF\n");
    /// # Ok::<(), fairleadow::Refusal>(())
    /// ```
    pub fn of<B: AsRef<[u8]>>(chart: &Chart<B>) -> Result<Image, Refusal> {
        Buffer::filled(|out| written(c::fairleadow_translate, chart.text(), out)).map(Image)
    }
}

impl<'b> Image<&'b [u8]> {
    /// The same with a lent buffer; [`IMAGE_TEXT`] characters are always enough. Tries 10 and 16.
    ///
    /// ```
    /// use fairleadow::{Chart, Image, Refusal};
    ///
    /// let chart = Chart::little(2, 0)?;
    /// let mut buffer = [0; 1_000];
    /// assert_eq!(Image::of_in(&chart, &mut buffer)?.text(), Image::of(&chart)?.text());
    /// assert_eq!(Image::of_in(&chart, &mut []), Err(Refusal::NoRoom));
    /// # Ok::<(), Refusal>(())
    /// ```
    pub fn of_in<B: AsRef<[u8]>>(chart: &Chart<B>, buffer: &'b mut [u8]) -> Result<Self, Refusal> {
        let length = written(c::fairleadow_translate, chart.text(), buffer)?;
        Ok(Image(&buffer[..length]))
    }
}
