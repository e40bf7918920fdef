"""Reading and writing media: IVF, WebM and other containers, sound, times and pictures."""
