;; For init.el of Emacs 28 or later with eglot, which Emacs 29 has: the server for C files. Hover is eldoc's, the quick fix is
;; M-x eglot-code-actions, the outline M-x imenu.
(require 'eglot)
(add-to-list 'eglot-server-programs '(c-mode . ("mizzengrape" "lsp")))
(add-hook 'c-mode-hook #'eglot-ensure)
