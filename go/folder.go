package itv

import (
	"io/fs"
	"path"
	"strings"
)

// addFolder adds the files of a folder of links or of records under a path: those whose names end in
// ".link", and those of the folders in it whose names have a full stop, down to a depth. A folder
// without files gets one that no command reads, so that it is there.
func addFolder(files map[string][]byte, folder fs.FS, at string, depth int) error {
	before := len(files)
	if folder != nil {
		if err := addBelow(files, folder, ".", at, depth); err != nil {
			return err
		}
	}
	if len(files) == before {
		files[path.Join(at, ".itv")] = nil
	}
	return nil
}

// addBelow adds the files of a folder of a file system, as the program reads them: what is neither a
// file nor a folder, as a pipe, is skipped and not opened, and a symbolic link that leads nowhere is
// an error.
func addBelow(files map[string][]byte, from fs.FS, folder, at string, depth int) error {
	entries, err := fs.ReadDir(from, folder)
	if err != nil {
		return err
	}
	for _, entry := range entries {
		name := entry.Name()
		isLink, inside := strings.HasSuffix(name, ".link"), path.Join(folder, name)
		if !isLink && (depth == 0 || !strings.Contains(name, ".")) {
			continue
		}
		info, err := fs.Stat(from, inside)
		if err != nil {
			return err
		}
		switch {
		case info.IsDir() && depth > 0:
			err = addBelow(files, from, inside, path.Join(at, name), depth-1)
		case info.Mode().IsRegular() && isLink:
			files[path.Join(at, name)], err = fs.ReadFile(from, inside)
		}
		if err != nil {
			return err
		}
	}
	return nil
}
