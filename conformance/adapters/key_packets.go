// Decodes the shown key packets of an IVF file of VP8 with golang.org/x/image/vp8: key_packets IN OUT
//
// OUT gets the frames as I420, without those of packets that the decoder refuses.
package main

import (
	"bytes"
	"encoding/binary"
	"image"
	"log"
	"os"

	"golang.org/x/image/vp8"
)

// I420 returns the samples that are shown, plane after plane.
func I420(picture *image.YCbCr, width, height int) []byte {
	var text []byte
	for y := 0; y < height; y++ {
		text = append(text, picture.Y[y*picture.YStride:][:width]...)
	}
	for _, plane := range [][]byte{picture.Cb, picture.Cr} {
		for y := 0; y < (height+1)/2; y++ {
			text = append(text, plane[y*picture.CStride:][:(width+1)/2]...)
		}
	}
	return text
}

func main() {
	source, err := os.ReadFile(os.Args[1])
	if err != nil {
		log.Fatal(err)
	}
	out, err := os.Create(os.Args[2])
	if err != nil {
		log.Fatal(err)
	}
	for rest := source[32:]; len(rest) >= 12; {
		length := int(binary.LittleEndian.Uint32(rest))
		packet := rest[12 : 12+length]
		rest = rest[12+length:]
		if len(packet) < 3 || packet[0]&17 != 16 {
			continue
		}
		decoder := vp8.NewDecoder()
		decoder.Init(bytes.NewReader(packet), len(packet))
		header, err := decoder.DecodeFrameHeader()
		if err != nil {
			log.Print(err)
			continue
		}
		picture, err := decoder.DecodeFrame()
		if err != nil {
			log.Print(err)
			continue
		}
		if _, err := out.Write(I420(picture, header.Width, header.Height)); err != nil {
			log.Fatal(err)
		}
	}
}
