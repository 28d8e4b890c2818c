(cd ../ten_lanes && bash stream.sh)
