;;; uxntal-mode-autoloads.el --- sources open in the mode  -*- no-byte-compile: t -*-
(add-to-list 'load-path (directory-file-name (file-name-directory load-file-name)))
(autoload 'uxntal-mode "uxntal-mode" "The mode of Uxntal sources." t)
(add-to-list 'auto-mode-alist '("\\.tal\\'" . uxntal-mode))
