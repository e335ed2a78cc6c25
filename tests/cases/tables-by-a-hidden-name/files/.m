directory D 96A UN
